"""What a power cut may leave of a folder: a model of its files and folders, which follows the system calls of a program.

Of each file it holds the bytes that are on the disk and those that each later call made of them, of each folder the entries that are on
the disk and each later change of them. `fsync` of a file flushes its bytes, that of a folder its own entries, and nothing else does. A
cut leaves of each folder its entries on the disk with any of the later changes, and of each file with later bytes any of `KINDS`."""
import hashlib
import os
import re
import socket
import stat

KINDS = ('new', 'old', 'empty', 'torn', 'zeros', 'half old')
# What strace is to record. The names with a question mark are not there on all systems.
TRACED = ('openat,write,writev,sendto,sendmsg,pwrite64,ftruncate,bind,close,fsync,fdatasync,mkdirat,unlinkat,renameat,renameat2,?open,?creat,?mkdir,?rmdir,'
          '?unlink,?rename,?link,?symlink,linkat,symlinkat,truncate,fallocate,copy_file_range,sendfile,pwritev,pwritev2,sync,syncfs,sync_file_range,mknodat')
STRACE = ('strace', '-ff', '-ttt', '-xx', '-s', '16777216', '-e', f'trace={TRACED}')
CALL = re.compile(r'(\S+) (\w+)\((.*)\)\s+= (\d+)')
TEXT = re.compile(r'"((?:\\x[0-9a-f]{2})*)"')

UMASK = os.umask(0o022)
os.umask(UMASK)


class NotModelled(Exception):
    """A call or a folder that the model can't follow."""


def calls_of(paths):
    """The calls of the process that began first, of these traces: name, arguments, texts among them, and answer. Those that failed are left out."""
    def began(path):
        with open(path, encoding='ascii') as file:
            return float(file.readline().split()[0])
    with open(min(paths, key=began), encoding='ascii') as file:
        for line in file:
            found = CALL.match(line)
            if found:
                _, name, words, answer = found.groups()
                texts = [bytes.fromhex(text.replace('\\x', '')) for text in TEXT.findall(words)]
                yield name, words, texts, int(answer)


class File:
    """A file: its bytes on the disk, and after each later call. `plain` is false for a socket."""

    def __init__(self, data=b'', later=(), plain=True):
        self.durable, self.later, self.plain = data, list(later), plain

    def copy(self):
        return File(self.durable, self.later, self.plain)

    def now(self):
        return self.later[-1] if self.later else self.durable

    def put_down(self):
        self.durable, self.later = self.now(), []

    def left(self, kind):
        """The bytes that a cut of this kind leaves."""
        old, new = self.durable, self.now()
        half = len(new) // 2
        return {'new': new, 'old': old, 'empty': b'', 'torn': new[:half], 'zeros': bytes(len(new)), 'half old': new[:half] + old[half:]}[kind]


class Folder:
    """A folder: its entries on the disk, from names to numbers of nodes, and each later change of them with its number."""

    def __init__(self, mode=0o777, durable=None, later=()):
        self.mode, self.durable, self.later = mode, dict(durable or {}), list(later)

    def copy(self):
        return Folder(self.mode, self.durable, self.later)

    def left(self, kept):
        """The entries that are left with the later changes of these numbers."""
        entries = dict(self.durable)
        for number, change in self.later:
            if number in kept:
                entries.update(change)
        return {name: node for name, node in entries.items() if node is not None}

    def now(self):
        return self.left({number for number, _ in self.later})

    def put_down(self):
        self.durable, self.later = self.now(), []


class Model:
    """The nodes of a folder, all of which is on the disk at first; node 0 is the folder itself. `ignored` is `files` or `folders` where syncs of these are to
    put nothing down, which a model does that is to be found wrong."""

    def __init__(self, place, ignored=None):
        self.place, self.ignored = os.path.realpath(place), ignored
        self.nodes, self.open, self.changes = [], {}, 0
        self.load(self.place, {})

    def load(self, place, known):
        """The number of the node that is at the place, with all below it. Two places of one file have one node."""
        found = os.lstat(place)
        number = known.setdefault(found.st_ino, len(self.nodes))
        if number < len(self.nodes):
            return number
        if stat.S_ISDIR(found.st_mode):
            self.nodes.append(Folder(stat.S_IMODE(found.st_mode)))
            self.nodes[number].durable = {name: self.load(f'{place}/{name}', known) for name in sorted(os.listdir(place))}
        elif stat.S_ISREG(found.st_mode):
            with open(place, 'rb') as file:
                self.nodes.append(File(file.read()))
        elif stat.S_ISSOCK(found.st_mode):
            self.nodes.append(File(plain=False))
        else:
            raise NotModelled(place)
        return number

    def copy(self):
        """The nodes as they are now, for `cut` and `tree`."""
        other = object.__new__(Model)
        other.nodes = [node.copy() for node in self.nodes]
        return other

    # ---- paths

    def names(self, path):
        """The names that lead from the folder to the path; None where it lies outside."""
        path = os.path.normpath(os.path.join(self.place, os.fsdecode(path)))
        if path != self.place and not path.startswith(self.place + '/'):
            return None
        return [name for name in path[len(self.place):].split('/') if name]

    def node(self, names):
        """The number of the node at these names, None where there is none."""
        number = 0
        for name in names:
            entries = self.nodes[number].now() if isinstance(self.nodes[number], Folder) else {}
            if name not in entries:
                return None
            number = entries[name]
        return number

    def change(self, names, node):
        """The last of the names leads to this node from now on, or to none."""
        self.changes += 1
        folder = self.nodes[self.node(names[:-1])]
        folder.later.append((self.changes, {names[-1]: node}))

    def add(self, names, node):
        """A new node at these names; its number."""
        self.nodes.append(node)
        self.change(names, len(self.nodes) - 1)
        return len(self.nodes) - 1

    # ---- calls

    def take(self, call):
        """Follows the call. Tells whether it changed something or put something down."""
        name, words, texts, answer = call
        what = getattr(self, 'take_' + re.sub(r'(at2?|64)$', '', name), None)
        if what and not re.fullmatch(r'\d.*at2?', words[:1] + name):
            return what(words, texts, answer)
        if name in ('sendto', 'sendmsg', 'writev') and self.file(words) is None:
            return False
        raise NotModelled(f'{name}({words[:80]})')

    def file(self, words):
        """The node of the descriptor that the arguments begin with, None where it is none of the folder's."""
        opened = self.open.get(int(re.match(r'\d+', words).group()))
        return opened and self.nodes[opened['node']]

    def take_open(self, words, texts, answer):
        names = self.names(texts[0])
        self.open.pop(answer, None)
        if names is None:
            return False
        if re.search('O_(RDWR|SYNC|DSYNC|TMPFILE)', words):
            raise NotModelled(f'open({words[-80:]})')
        found = self.node(names)
        node = self.add(names, File()) if found is None else found
        self.open[answer] = {'node': node, 'at': 0, 'append': 'O_APPEND' in words}
        if found is not None and 'O_TRUNC' in words:
            self.nodes[node].later.append(b'')
        return found is None or 'O_TRUNC' in words

    def take_close(self, words, _texts, _answer):
        self.open.pop(int(words), None)
        return False

    def write_at(self, opened, at, data):
        """Writes the bytes there."""
        file = self.nodes[opened['node']]
        old = file.now().ljust(at, b'\0')
        file.later.append(old[:at] + data + old[at + len(data):])
        return True

    def take_write(self, words, texts, answer):
        opened = self.open.get(int(words.split(',')[0]))
        if opened is None or not answer:
            return False
        at = len(self.nodes[opened['node']].now()) if opened['append'] else opened['at']
        opened['at'] = at + answer
        return self.write_at(opened, at, texts[0][:answer])

    def take_pwrite(self, words, texts, answer):
        opened = self.open.get(int(words.split(',')[0]))
        return opened is not None and self.write_at(opened, int(words.split(',')[-1]), texts[0][:answer])

    def take_ftruncate(self, words, _texts, _answer):
        file, size = self.file(words), int(words.split(',')[1])
        if file is not None:
            file.later.append(file.now()[:size].ljust(size, b'\0'))
        return file is not None

    def take_fsync(self, words, _texts, _answer):
        node = self.file(words)
        if node is None or self.ignored == ('folders' if isinstance(node, Folder) else 'files'):
            return False
        node.put_down()
        return True

    take_fdatasync = take_fsync

    def take_mkdir(self, words, texts, _answer):
        names = self.names(texts[0])
        if names is not None:
            self.add(names, Folder(int(words.rsplit(' ', 1)[1], 8) & ~UMASK))
        return names is not None

    def take_unlink(self, _words, texts, _answer):
        names = self.names(texts[0])
        if names is not None:
            self.change(names, None)
        return names is not None

    take_rmdir = take_unlink

    def take_rename(self, words, texts, _answer):
        """The two sides are changes of their own, but within one folder."""
        old, new = map(self.names, texts)
        if old is None and new is None:
            return False
        if old is None or new is None or 'RENAME_' in words:
            raise NotModelled(f'rename({words})')
        self.change(new, self.node(old))
        if old[:-1] != new[:-1]:
            self.change(old, None)
        elif old != new:
            self.nodes[self.node(old[:-1])].later[-1][1][old[-1]] = None
        return True

    def take_bind(self, _words, texts, _answer):
        names = self.names(texts[0]) if texts else None
        if names is not None:
            self.add(names, File(plain=False))
        return names is not None

    # ---- cuts

    def whole(self):
        """What is there without a cut."""
        return self.tree(range(self.changes + 1), {})

    def nothing(self):
        """A cut that leaves what is on the disk alone."""
        return (), {number: 'old' for number, node in enumerate(self.nodes) if isinstance(node, File)}

    def cut(self, chance):
        """A cut at random: the numbers of the changes that last, and the kinds of the bytes of files."""
        folders = [[number for number, _ in node.later] for node in self.nodes if isinstance(node, Folder)]
        every = sorted(number for numbers in folders for number in numbers)
        one = chance.choice(every or [0])
        kept = chance.choice([
            every, [], [one], [number for number in every if number != one], [number for number in every if number <= one],
            [number for number in every if chance.random() < 0.5],
            [number for numbers in folders for number in numbers[:chance.randint(0, len(numbers))]]])
        files = [number for number, node in enumerate(self.nodes) if isinstance(node, File) and node.later]
        kinds = chance.choice([KINDS, (chance.choice(KINDS),), ('new',)])
        return kept, {number: chance.choice(kinds) for number in files}

    def tree(self, kept, kinds):
        """What such a cut leaves, by paths: the mode of a folder, the bytes of a file, the path of the same file where it came before, None for a socket."""
        kept, found, places = set(kept), {}, {}

        def go(number, path):
            for name, below in sorted(self.nodes[number].left(kept).items()):
                node, place = self.nodes[below], f'{path}{name}'
                if isinstance(node, Folder):
                    found[place] = node.mode
                    go(below, place + '/')
                elif below in places:
                    found[place] = places[below]
                else:
                    places[below] = place
                    found[place] = node.left(kinds.get(below, 'new')) if node.plain else None
        go(0, '')
        return found


def digest(tree):
    return hashlib.sha256(repr(sorted(tree.items())).encode()).digest()


def lay(tree, folder):
    """Lays the tree into the folder."""
    for path, node in sorted(tree.items(), key=lambda item: item[0].split('/')):
        place = f'{folder}/{path}'
        if isinstance(node, int):
            os.mkdir(place, node)
        elif isinstance(node, str):
            os.link(f'{folder}/{node}', place)
        elif node is None:
            with socket.socket(socket.AF_UNIX) as server:
                server.bind(place)
        else:
            with open(place, 'wb') as file:
                file.write(node)
