#!/usr/bin/env python3
"""The rows of generated traces and of summaries, examples/generated.rows, made apart from the program:

    bench/vectors/generated_rows.py > examples/generated.rows

The traces are worked out here, and the counts of their runs by replays.py.
"""
KINDS = {"opened": ("Opened",), "closed": ("Closed",), "other": ("Done", "Piece"), "running": ("Running",)}
MODULUS, WINDOW, LEAST, MOST, MARK = 0x3DA3358B4DC173, 48, 2048, 65536, 0x78


def remainder(value):
    """The remainder of a polynomial over GF(2)."""
    for at in range(value.bit_length() - 1, 52, -1):
        if value >> at & 1:
            value ^= MODULUS << at - 53
    return value


HIGH = [remainder(b << 53) for b in range(256)]
LEAVING = [remainder(b << 8 * (WINDOW - 1)) for b in range(256)]


def with_byte(print_, byte):
    print_ = print_ << 8 | byte
    return print_ & (1 << 53) - 1 ^ HIGH[print_ >> 53]


def chunk_end(content, start):
    """Where the chunk that begins there ends."""
    last = min(len(content), start + MOST)
    if last - start <= LEAST:
        return last
    print_ = 0
    for byte in content[start + LEAST - WINDOW : start + LEAST]:
        print_ = with_byte(print_, byte)
    for end in range(start + LEAST, last):
        if print_ & 0x1FFF == MARK:
            return end
        print_ = with_byte(print_ ^ LEAVING[content[end - WINDOW]], content[end])
    return last


def chunks(content):
    count = start = 0
    while start < len(content):
        start, count = chunk_end(content, start), count + 1
    return count


def random_bytes(state, count):
    out = bytearray()
    for _ in range(count):
        state = (state * 6364136223846793005 + 1442695040888963407) % 2**64
        out.append(state >> 56)
    return bytes(out)


def block(seed, number):
    """The client, the file, and where it is written to, if it is."""
    choice = (seed + number) % 2**32
    return 1 + choice % 4, 2 + choice // 4 % 8, 37 * choice % 9000 if choice // 32 % 2 else None


def trace(seed, blocks):
    """The lines of a trace."""
    yield from ("lbfs-trace 1", "term 1000", "drift 50", "clients 4")
    yield from (f"file f{i} r:{(seed + i) % 2**64}:9000" for i in range(1, 9))
    yield from (f"join {client} 0 0" for client in range(1, 5))
    for number in range(1, blocks + 1):
        t = 10 * number
        client, file, offset = block(seed, number)
        yield from (f"do {client} {t} open #{file}", f"pass {client} 40 {t} {t}")
        if offset is None:
            yield f"do {client} {t} abandon #{file}"
            continue
        yield from (f"do {client} {t} write #{file} {offset} t:{number}", f"do {client} {t} close #{file}", f"pass {client} 40 {t} {t}")
        yield from (f"pass {session} 2 {t} {t}" for session in range(1, 5))
        yield from (f"settle {t}", f"pass {client} 2 {t} {t}")


def summary(seed, blocks):
    """The lines of a summary: what is counted of a replay apart from the program (replays.py)."""
    from replays import World

    world = World()
    for line in trace(seed, blocks):
        world.line(line.split(" "))
    kinds = [op.out.split(" ")[0] for op in world.ops]
    told = {name: sum(kind in names for kind in kinds) for name, names in KINDS.items()}
    told["refused"] = len(kinds) - sum(told.values())
    order = ("opened", "closed", "other", "refused", "running")
    yield " ".join([f"ops {len(kinds)}"] + [f"{name} {told[name]}" for name in order])
    cond, tmp, read, data = (sum(op.counts[k] for op in world.ops) for k in range(4))
    yield f"cond {cond} tmp {tmp} read {read} data {data}"
    yield f"journal {world.journal}"


def row(title, words, lines, status=0, given=None):
    """A row, whose input is closed where none is given."""
    print(f"\n== {title}\nwords {words}")
    if status:
        print(f"status {status}")
    if given is None:
        print("source closed")
    for line in given or ():
        print(f"in {line}")
    for line in lines:
        print(f"out {line}")


def read_rows():
    """Summaries of traces that are read."""
    row("the summary of a trace that is read", "replay --summary", summary(31, 1), 0, trace(31, 1))
    row("the summary of a trace that is refused", "replay --summary", ["refused line 2 grammar"], 5, ["lbfs-trace 1"])
    head = ["lbfs-trace 1", "term 60000", "drift 100", "clients 1"]
    opens = ["file a t:abc", "do 1 0 open #2", "join 1 0 0", "do 1 0 open #9", "pass 1 2 0 0", "do 1 0 open #2", "do 1 0 open #2"]
    counts = ["ops 4 opened 0 closed 0 other 0 refused 3 running 1", "cond 0 tmp 0 read 0 data 0", "journal 0"]
    row("one that is refused by each side, one that has to wait, and one that runs on", "replay --summary", counts, 0, head + opens)
    closes = ["file a t:a", "join 1 0 0", "do 1 0 open #2", "pass 1 3 0 0", "do 1 0 write #2 0 t:b", "do 1 0 close #2", "pass 1 9 0 0", "cut 1 0", "settle 0"]
    counts = ["ops 3 opened 1 closed 0 other 1 refused 1 running 0", "cond 1 tmp 1 read 1 data 2", "journal 1"]
    row("a close that was lost, and whose change was made", "replay --summary", counts, 0, head + closes)


def main():
    print("# Traces that are made from a seed, and summaries. Nothing is read where a trace is made.\n# Made by bench/vectors/generated_rows.py, apart from the program.")
    row("a block that changes its file", "gen 31 1", trace(31, 1))
    row("a block that leaves its file", "gen 0 1", trace(0, 1))
    row("the seed at which the choices begin anew", "gen 4294967295 2", trace(2**32 - 1, 2))
    row("the greatest seed: the files' seeds begin anew", "gen 18446744073709551615 40", trace(2**64 - 1, 40))
    row("many blocks", "gen 987654321 64", trace(987654321, 64))
    row("the summary of a block that changes its file", "replay --seed 31 --blocks 1 --summary", summary(31, 1))
    row("the summary of a block that leaves its file", "replay --seed 0 --blocks 1 --summary", summary(0, 1))
    read_rows()
    row("the most blocks", "replay --seed 31 --blocks 5000 --summary", summary(31, 5000))
    for again in ("", ", again"):
        row(f"five hundred blocks{again}", "replay --seed 1 --blocks 500 --summary", summary(1, 500))
    seeds = [0, 1, 2, 3, 7, 31, 32, 63, 100, 1000, 65535, 65536, 2**31, 2**32 - 40, 2**32 - 1, 2**32, 10**12, 2**63, 2**64 - 9, 2**64 - 1]
    for place, seed in enumerate(seeds):
        blocks = 20 + 7 * place
        row(f"a summary of seed {seed}", f"replay --summary --blocks={blocks} --seed={seed}", summary(seed, blocks))


if __name__ == "__main__":
    main()
