#!/usr/bin/env python3
"""each.py PROGRAM: what `{{#each}}` over a map costs, compared with handlebars.js.

For 1,000 and 10,000 settings below `settings.load` it applies a file whose template goes over them 40 times, and one whose template does not, each over
fresh copies of one store: the difference of the two in time of the processor is that of 40 renderings. handlebars.js renders the same template over
the same values, once warm, and the two texts are compared. The least of ten runs is taken. Wants node with its package handlebars (NODE_PATH says
where), and works in a new folder below the system's folder for such files, or below BENCH_FOLDER."""
import json
import os
import resource
import shutil
import subprocess
import sys
import tempfile

from device import run

COUNTS = (1000, 10000)
TIMES = 40
RUNS = 10
EACH = '{{#each settings.load}}{{@key}}={{this}}\n{{/each}}'
TABLES = '''[types]
"settings.load.*" = "int 0 999999"
[services.s]
configuration-files = ["f"]
restart-commands = []
[configuration-files.f]
path = "/etc/f"
template-path = "f"
[metadata.settings.load]
affected-services = ["s"]
[settings.load]
'''
PEER = '''
const { readFileSync, writeFileSync } = require('fs');
const [source, values, out, runs] = process.argv.slice(1);
const render = require('handlebars').compile(readFileSync(source, 'utf8'), { noEscape: true });
const context = { settings: { load: JSON.parse(readFileSync(values, 'utf8')) } };
writeFileSync(out, render(context));
let least = Infinity;
for (let run = 0; run < Number(runs); run++) {
    const begun = process.cpuUsage().user;
    render(context);
    least = Math.min(least, process.cpuUsage().user - begun);
}
console.log(least / 1e6);
'''


def seed_of(program, folder, count, times):
    """A folder with a store of so many settings, of which nothing was applied, and a template that goes over them so many times."""
    os.makedirs(f'{folder}/image/templates')
    texts = {'model.toml': TABLES + ''.join(f'k{i} = {i}\n' for i in range(count)), 'templates/f': EACH * times}
    for name, text in texts.items():
        with open(f'{folder}/image/{name}', 'w', encoding='utf-8') as file:
            file.write(text)
    run(program, folder, 'init', '--version', '1.0.0')
    run(program, folder, 'get', 'settings.load.k0')


def applied(program, seed, folder):
    """The seconds of a processor that the program takes to apply all over a copy of the seed."""
    shutil.copytree(seed, folder, symlinks=True)
    before = resource.getrusage(resource.RUSAGE_CHILDREN).ru_utime
    run(program, folder, 'apply')
    return resource.getrusage(resource.RUSAGE_CHILDREN).ru_utime - before


def ours(program, base, count, times):
    """The least of the runs, and what was rendered."""
    seed = f'{base}/{count}-{times}'
    seed_of(program, seed, count, times)
    least = min(applied(program, seed, f'{seed}-{at}') for at in range(RUNS))
    with open(f'{seed}-0/etc/f', encoding='utf-8') as file:
        return least, file.read()


def theirs(base, count):
    """The least of the runs of handlebars.js, and what it rendered."""
    source, values, out = f'{base}/source', f'{base}/values', f'{base}/out'
    with open(source, 'w', encoding='utf-8') as file:
        file.write(EACH * TIMES)
    with open(values, 'w', encoding='utf-8') as file:
        json.dump({f'k{i}': i for i in sorted(range(count), key=str)}, file)
    told = subprocess.run(['node', '-e', PEER, source, values, out, str(RUNS)], capture_output=True, text=True, check=True)
    with open(out, encoding='utf-8') as file:
        return float(told.stdout), file.read()


def main():
    program = os.path.realpath(sys.argv[1])
    print('| Children | Program, ms | handlebars.js, ms | Ratio |\n|---:|---:|---:|---:|')
    with tempfile.TemporaryDirectory(dir=os.environ.get('BENCH_FOLDER')) as base:
        for count in COUNTS:
            (alone, _), (all_of_it, rendered) = (ours(program, base, count, times) for times in (0, TIMES))
            mine, (least, peers) = all_of_it - alone, theirs(base, count)
            if rendered != peers:
                sys.exit(f'{count} children: two texts')
            print(f'| {count} | {mine / TIMES * 1000:.2f} | {least / TIMES * 1000:.2f} | {mine / least:.2f} |', flush=True)


if __name__ == '__main__':
    main()
