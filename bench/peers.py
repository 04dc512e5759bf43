"""What SQLite takes for the like, in a folder: rows by key, each transaction on the disk before it is answered."""
import sqlite3
import statistics
import time

STEP = 7919


def timed(work):
    """The microseconds of a call."""
    start = time.perf_counter()
    work()
    return (time.perf_counter() - start) * 1e6


def change(base, key, value):
    """Changes one row in a transaction of its own."""
    base.execute('update settings set value = ? where key = ?', (value, f'settings.load.k{key}'))
    base.commit()


def sqlite_rows(folder, count, rounds):
    """Medians of a transaction of one change, in two kinds of journal, and of a look-up, with so many rows; and the opening with all rows read."""
    for mode in ('delete', 'wal'):
        place = f'{folder}/{mode}.sqlite'
        base = sqlite3.connect(place)
        base.execute(f'pragma journal_mode = {mode}')
        base.execute('pragma synchronous = full')
        base.execute('create table settings (key text primary key, value text) without rowid')
        base.executemany('insert into settings values (?, ?)', ((f'settings.load.k{i}', str(i)) for i in range(count)))
        base.commit()
        keys = [i * STEP % count for i in range(rounds)]
        yield f'transaction of one change, journal `{mode}`', statistics.median(timed(lambda k=key: change(base, k, str(k + 1))) for key in keys)
        ask = 'select value from settings where key = ?'
        yield f'look-up, journal `{mode}`', statistics.median(timed(lambda k=key: base.execute(ask, (f'settings.load.k{k}',)).fetchone()) for key in keys)
        base.close()
        yield f'opening, and all rows read, journal `{mode}`', timed(lambda p=place: sqlite3.connect(p).execute('select * from settings').fetchall())
