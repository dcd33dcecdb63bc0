"""Valid platform files that are made from numbers: 1 to 64 processors, prompt and late delivery, host events, stalls, scripts, pens, operating
systems and seeded processors. A number makes the same file each time."""

import random

# the sizes of TSEG in MiB, and the most processors with each
MOST = {1: 14, 2: 30, 8: 126, 48: 512}
# what a script says: SMI commands, looks and writes at the register block, interrupt commands, locks, memory in SMRAM and out of it
STEPS = [
    "out 1 00b2 04",
    "out 1 00b2 05",
    "out 4 0cd8 00000001",
    "out 4 0cd8 00000000",
    "out 1 0cdc 02",
    "out 1 0cdc 08",
    "out 1 0cdc 10",
    "in 1 0cdc",
    "in 4 0ce0",
    "icr 00000000 000c0200",
    "icr 00000000 000c0500",
    "icr 01000000 0000069f",
    "icr 01000000 00000200",
    "cfgw 9d 08",
    "cfgr 9c",
    "store 8 00030000 0000000000000001",
    "store 4 00038000 90909090",
    "load 8 00030000",
    "load 4 00038000",
    "cas 00030000 0000000000000001 ffffffffffffffff",
    "store 1 0009f010 01",
    "load 8 0009f00c",
    "out 4 0518 00100000",
    "in 2 0510",
    "nop",
]


def ids_of(draw, count, is_wide):
    """As many distinct APIC IDs."""
    most = 4294967294 if is_wide else 254
    return draw.sample(range(most + 1), count)


def agent_of(draw, cpu):
    """The lines of a processor's agent; none leaves it what it is without."""
    # what processor 0 does decides most: an operating system there adds and ejects
    usual = ["os", "os", "script"] if cpu == 0 else ["none", "none", "os", "pen"]
    kind = draw.choice([*usual, "script", "seeded"])
    if kind == "none":
        return []
    lines = ["[[agent]]", f"cpu = {cpu}", f'kind = "{kind}"']
    if kind == "script":
        steps = draw.choices(STEPS, k=draw.randrange(12))
        lines.append("steps = [" + ", ".join(f'"{step}"' for step in steps) + "]")
    if kind == "seeded":
        lines.append(f"seed = {draw.randrange(2**32)}")
    return lines


def platform_file(number):
    """The platform file of a number."""
    draw = random.Random(number)
    count = draw.choice([1, 2, 2, 3, 4, draw.randint(1, 14), draw.randint(1, 64)])
    tseg = draw.choice([size for size, most in MOST.items() if count <= most])
    turns = draw.choice([0, 60, 400, 2000, 6000])
    is_wide, is_late = draw.random() < 0.3, draw.random() < 0.4
    boot = [0, *sorted(draw.sample(range(1, count), draw.randrange(count)))]
    lines = [
        "[platform]",
        f"apic = {ids_of(draw, count, is_wide)}",
        f"boot = {boot}",
        f"low_memory = {draw.randint(64, 2048) << 20}",
        f"tseg_mib = {tseg}",
        f"features = {draw.choice([7, 7, 7, 7, 3, 1, 0, 5])}",
        f"polls = {draw.choice([1, 2, 8, 64])}",
        f"turns = {turns}",
        f"x2apic = {str(is_wide).lower()}",
    ]
    if is_late:
        lines += ['delivery = "late"', f"lag = {draw.randint(1, 5)}"]
    for _ in range(draw.randrange(8)):
        event = draw.choice(["insert", "insert", "remove"])
        lines += ["[[host]]", f"turn = {draw.randint(0, turns // 2)}", f"{event} = {draw.randrange(count)}"]
    for _ in range(draw.randrange(4)):
        begin = draw.randint(0, turns)
        lines += ["[[stall]]", f"cpu = {draw.randrange(count)}", f"from = {begin}", f"to = {begin + draw.randrange(200)}"]
    for cpu in range(count):
        lines += agent_of(draw, cpu)
    return "\n".join(lines) + "\n"
