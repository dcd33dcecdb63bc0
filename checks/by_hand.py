"""Traces by hand for checks/tools, and what the tools have to say of them, worked out by docs/MACHINE.md and docs/FORMATS.md."""

# each optional part of a header: TSEG begins at 0d000000, the tile of slot 1 at 0d030000, and 11170 is 70000. There is no
# boot, so the register block is in its legacy form
WIDE = """\
platform apic=0,70000 boot=0 low=10000000 tseg=48 ext=false features=7 polls=8 turns=9 modern=true smram=true \
delivery=late lag=3 x2apic=true
host insert 1
p0 @0d028000 store 1 0d004000 01
p0 @0d02803c icr 00011170 00000200
p1 @00038010 icr 00011170 0000069f
p0 @0d028098 out 4 0cd8 00000001
p0 @0d0280a0 store 1 0d002001 00
p1 @0d038014 store 1 0d003001 01
p0 icr 00000000 000c0500
p0 icr 00000000 00080200
p0 load 4 0003000c = 00000000
p0 @0d028088 tell stillpending 1 11
end 11
"""
WIDE_ANNOTATED = [
    "host insert 1",
    "p0 S0  store session 01",
    "p0 N3  icr SMI apic=70000",
    "p1 F5  icr SIPI page=9f apic=70000",
    "p0 E4f out selector 00000001 (ignored in the legacy form)",
    "p0 E4h store map[1] 00",
    "p1 R6  store parked[1] 01",
    "p0 icr INIT others",
    "p0 icr 00000000 00080200",
    "p0 load 4 0003000c = 00000000",
    "p0 T   tell stillpending processor=1 status=11",
    "end 11",
]

# every register, each with the values that docs/MACHINE.md has a rule for: a line, and how it is annotated
REGISTERS = [
    # the register block: its legacy form has a bit for each processor that is enabled
    ("p0 in 4 0cd8 = 00000003", "p0 in cpu_bitmap = 00000003 (p0, p1)"),
    ("p0 out 4 0cd8 00000001", "p0 out selector 00000001 (ignored in the legacy form)"),
    ("p0 out 1 0cdd 03", "p0 out command 03 (ignored in the legacy form)"),
    ("p0 out 2 0cd8 0000", "p0 out selector 0000 (to the modern form)"),
    ("p0 in 4 0cd8 = 00000000", "p0 in command_data_2 = 00000000"),
    # the selector names a possible processor, or none; then all else is ignored, and the command stays
    ("p0 out 4 0cd8 00000002", "p0 out selector 00000002 (p2)"),
    ("p0 out 4 0cd8 00000003", "p0 out selector 00000003 (no processor)"),
    ("p0 out 1 0cdd 03", "p0 out command 03 (no processor is selected)"),
    ("p0 in 1 0cdc = 00", "p0 in status = 00 (no processor is selected)"),
    ("p0 out 4 0cd8 00000001", "p0 out selector 00000001 (p1)"),
    ("p0 in 4 0ce0 = 00000001", "p0 in command_data = 00000001 (p1)"),
    # status and control, at any width: control's low byte alone counts
    ("p0 in 1 0cdc = 01", "p0 in status = 01 (enabled)"),
    ("p0 in 4 0cdc = 00000013", "p0 in status = 00000013 (enabled, insert, fw_remove)"),
    ("p0 in 2 0cdc = 0005", "p0 in status = 0005 (enabled, remove)"),
    ("p0 in 1 0cdc = 00", "p0 in status = 00"),
    ("p0 out 1 0cdc 02", "p0 out control 02 (clear insert)"),
    ("p0 out 2 0cdc ff1c", "p0 out control ff1c (clear remove, eject, fw_remove)"),
    ("p0 out 1 0cdc 21", "p0 out control 21 (other bits 21)"),
    # commands, and what command data is after each; the APIC ID of place 2 is 17, 11 in hexadecimal
    ("p0 out 4 0cd8 00000002", "p0 out selector 00000002 (p2)"),
    ("p0 out 1 0cdd 03", "p0 out command 03 (GET_ARCH_ID)"),
    ("p0 in 4 0ce0 = 00000011", "p0 in command_data = 00000011 (APIC ID 17)"),
    ("p0 out 1 0cdd 01", "p0 out command 01 (OST_EVENT)"),
    ("p0 out 4 0ce0 00000103", "p0 out command_data 00000103 (OST event)"),
    ("p0 out 4 0cdd 0000ff02", "p0 out command 0000ff02 (OST_STATUS)"),
    ("p0 out 4 0ce0 00000000", "p0 out command_data 00000000 (OST status)"),
    ("p0 in 4 0ce0 = 00000000", "p0 in command_data = 00000000"),
    ("p0 out 1 0cdd 07", "p0 out command 07"),
    # the search goes from the selector upward, then from 0: processor 2 has an insert event, 1 none
    ("host insert 2", "host insert 2"),
    ("p0 out 4 0cd8 00000001", "p0 out selector 00000001 (p1)"),
    ("p0 out 1 0cdd 00", "p0 out command 00 (GET_PENDING)"),
    ("p0 in 4 0ce0 = 00000002", "p0 in command_data = 00000002 (p2)"),
    # other offsets of the block are no register's
    ("p0 in 1 0cdd = 00", "p0 in 1 0cdd = 00"),
    ("p0 out 1 0cd9 00", "p0 out 1 0cd9 00"),
    # ICH9, each at its own width alone
    ("p0 out 1 00b2 04", "p0 out APM_CNT 04 (CPU_HOTPLUG)"),
    ("p0 in 1 00b2 = 05", "p0 in APM_CNT = 05"),
    ("p0 out 2 00b2 0004", "p0 out 2 00b2 0004"),
    ("p0 out 1 00b3 04", "p0 out APM_STS 04"),
    ("p0 in 1 0620 = 04", "p0 in GPE0_STS = 04 (CPU_HOTPLUG)"),
    ("p0 out 1 0620 04", "p0 out GPE0_STS 04 (clear CPU_HOTPLUG)"),
    ("p0 out 1 0620 03", "p0 out GPE0_STS 03 (clear other bits 3)"),
    ("p0 out 4 0630 00000021", "p0 out SMI_EN 00000021 (GBL_SMI_EN, APMC_EN)"),
    ("p0 in 4 0630 = 00002020", "p0 in SMI_EN = 00002020 (APMC_EN, other bits 2000)"),
    ("p0 in 1 0630 = 00", "p0 in 1 0630 = 00"),
    # the lock registers
    ("p0 cfgw 9c ff", "p0 cfgw F_SMBASE ff (QUERY)"),
    ("p0 cfgr 9c = 01", "p0 cfgr F_SMBASE = 01 (IN_RAM)"),
    ("p0 cfgw 9c 02", "p0 cfgw F_SMBASE 02 (LCK)"),
    ("p0 cfgr 9c = 00", "p0 cfgr F_SMBASE = 00"),
    ("p0 cfgw 9d 18", "p0 cfgw MCH_SMRAM 18 (G_SMRAME, D_LCK)"),
    ("p0 cfgw 9d 48", "p0 cfgw MCH_SMRAM 48 (G_SMRAME, other bits 40)"),
    ("p0 cfgw 9e 01", "p0 cfgw MCH_ESMRAMC 01 (T_EN, TSEG_1MB)"),
    ("p0 cfgw 9e 03", "p0 cfgw MCH_ESMRAMC 03 (T_EN, TSEG_2MB)"),
    ("p0 cfgr 9e = 04", "p0 cfgr MCH_ESMRAMC = 04 (TSEG_8MB)"),
    ("p0 cfgw 9e 87", "p0 cfgw MCH_ESMRAMC 87 (T_EN, TSEG_EXT, other bits 80)"),
    ("p0 cfgw 50 ff", "p0 cfgw EXT_TSEG_MBYTES ff (QUERY)"),
    ("p0 cfgr 50 = 30", "p0 cfgr EXT_TSEG_MBYTES = 30 (48 MiB)"),
    ("p0 cfgr 9f = 00", "p0 cfgr 9f = 00"),
    # fw_cfg: data is of the item that was selected; a transfer may select another. The address's highest byte comes first
    ("p0 out 2 0510 0020", "p0 out FW_CFG_SELECTOR 0020 (etc/smi/features-ok)"),
    ("p0 in 1 0511 = 01", "p0 in FW_CFG_DATA = 01 (etc/smi/features-ok)"),
    ("p0 out 2 0510 0019", "p0 out FW_CFG_SELECTOR 0019 (FILE_DIR)"),
    ("p0 in 1 0511 = 00", "p0 in FW_CFG_DATA = 00 (FILE_DIR)"),
    ("p0 out 2 0510 0000", "p0 out FW_CFG_SELECTOR 0000 (an empty item)"),
    ("p0 out 2 0510 0022", "p0 out FW_CFG_SELECTOR 0022 (etc/smi/supported-features)"),
    ("p0 out 4 0518 00100000", "p0 out FW_CFG_DMA_LOW 00100000 (descriptor at 00001000)"),
    ("p0 in 1 0511 = 00", "p0 in FW_CFG_DATA = 00"),
    ("p0 out 4 0514 01000000", "p0 out FW_CFG_DMA_HIGH 01000000"),
    ("p0 out 4 0518 00200000", "p0 out FW_CFG_DMA_LOW 00200000 (descriptor at 100002000)"),
    ("p0 out 4 0518 00100000", "p0 out FW_CFG_DMA_LOW 00100000 (descriptor at 00001000)"),
]
# a platform whose block has the legacy form alone, and one that can go over
LEGACY = "platform apic=0,1,17 boot=0,1 low=08000000 tseg=1 features=7 polls=8 turns=0 modern=false smram=true delivery=prompt\n"
MODERN = LEGACY.replace("modern=false", "modern=true")
# in the former nothing switches, and a read shows the enabled processors still
STAYS = [
    ("p0 out 4 0cd8 00000000", "p0 out selector 00000000 (ignored in the legacy form)"),
    ("p0 in 4 0cd8 = 00000003", "p0 in cpu_bitmap = 00000003 (p0, p1)"),
    ("p0 in 1 0cdc = 00", "p0 in status = 00"),
]

# what `--why` puts behind a line: the first sentence of the row's reason in docs/HANDLERS.md. The front of examples/eject.out
# and its lines at these labels, with the line as it is annotated
REASON_COLUMN = 48
REASONS = [
    ("p0 out selector 00000000 (to the modern form)", "switches the register block to its modern form"),
    ("p0 cfgw MCH_ESMRAMC 01 (T_EN, TSEG_1MB)", "T_EN and the size of TSEG: 1, 2, 8 or 48 MiB"),
    ("p0 out SMI_EN 00000021 (GBL_SMI_EN, APMC_EN)", "SMI_EN: GBL_SMI_EN and APMC_EN"),
    ("p0 out APM_CNT 04 (CPU_HOTPLUG)", ""),
    ("p0 smi", ""),
    ("p0 S2  icr SMI others", "calls all others into SMM, also where broadcast wasn't negotiated"),
    ("p0 C3  in command_data = 00000001 (p1)", "who was found"),
    ("p0 C4  in status = 11 (enabled, fw_remove)", "after C3: the status of the one that was found"),
    ("p1 R2  load map[1] = 01", "one that is to park doesn't look at release"),
    ("p1 R6  store parked[1] 01", "tells that it parked"),
    ("p0 E4b out control 08 (eject)", "the eject, once the processor has parked"),
    ("p0 T   tell ejected processor=1 apic=1 slot=1", "after all that the outcome speaks of"),
    ("p0 E7  rsm", "the monarch's record stays as it is; its next SMI entry begins anew"),
]
LONGEST_REASON = 100

# the boot of a platform with a TSEG of 1 MiB and all features, as docs/FORMATS.md has it
BOOT = """\
p0 out 4 0cd8 00000000
p0 out 4 0cd8 00000000
p0 out 1 0cdd 00
p0 in 4 0cd8 = 00000000
p0 cfgw 9c ff
p0 cfgr 9c = 01
p0 store 4 0009f000 004e4550
p0 store 4 00038000 53000001
p0 store 4 00038004 53000002
p0 store 4 00038008 53000003
p0 store 4 0003800c 53000004
p0 store 4 00038010 53000005
p0 store 4 00038014 53000006
p0 store 8 00030000 ffffffffffffffff
p0 cfgw 9c 02
p0 cfgw 9e 01
p0 cfgw 9d 18
p0 store 8 00001000 080000000a002200
p0 store 8 00001008 1010000000000000
p0 out 4 0518 00100000
p0 load 8 00001010 = 0000000000000007
p0 store 8 00001000 0800000018002100
p0 store 8 00001010 0000000000000007
p0 out 4 0518 00100000
p0 out 2 0510 0020
p0 in 1 0511 = 01
p0 out 4 0630 00000021
"""
# four sessions. A write to the register block disturbs one where it is made outside SMM between S2 (@07f28008) and E5
# (@07f2808c), at any port from 0cd8 to 0ce3: not before S2, not after E5, no read, no other port, none in SMM
FOUR_SESSIONS = (
    LEGACY.replace("modern=false", "modern=true").replace("delivery=prompt", "delivery=late lag=3")
    + BOOT
    + """\
host insert 2
p1 out 4 0cd8 00000002
p0 smi
p0 @07f28000 store 1 07f04000 01
p1 out 1 0cdd 00
p0 @07f28008 icr 00000000 000c0200
p1 in 4 0ce0 = 00000002
p1 store 1 0009f010 01
p0 @07f28088 tell gateheld 2 17 1
p0 @07f2808c store 1 07f04000 00
p1 out 1 0cdc 02
p0 @07f28094 rsm
p0 smi
p0 @07f28008 icr 00000000 000c0200
p1 out 4 0cda 00000000
p1 out 1 0ce3 00
p1 out 1 0ce4 00
p0 @07f28018 out 1 0cdd 00
p0 @07f28088 tell foreign 2 0
p0 @07f28088 tell added 2 17 2
p0 @07f2808c store 1 07f04000 00
p0 @07f28094 rsm
p0 smi
p0 @07f28094 rsm
p0 smi
p0 @07f28008 icr 00000000 000c0200
p1 out 1 0cdc 10
host remove 1
"""
)
FOUR_SUMMED_UP = """\
platform    3 possible processors, 128 MiB of RAM, TSEG of 1 MiB at 07f00000, SMIs late, lag 3
entries     55: 27 of the boot, 2 of the host, 13 outside SMM, 13 in SMM; no end line
boot        handed over after 27 accesses
processors  3 possible: 2 at boot, 1 inserted, 1 asked to go, 0 ejected, 3 at the end
sessions    4: 2 undisturbed, 2 disturbed; the last one isn't at its end
            session 1, entries 30 to 39, undisturbed: GateHeld p2
            session 2, entries 40 to 49, disturbed by p1 in entry 42 and 1 more: Foreign p2, added p2
            session 4, entries 52 on, disturbed by p1 in entry 54: nothing told
outcomes    3: 1 added, 0 ejected, 2 refused
refusals    1 GateHeld: an insert event while the add of another APIC ID isn't complete
            1 Foreign: the APIC ID that was read isn't the processor's, or the processor is 0
"""
# a boot that is cut, one that is refused, and one that is handed over and has nothing after it
BOOTS = [
    (MODERN + "".join(f"{line}\n" for line in BOOT.splitlines()[:5]), "boot        not at its end: 5 of 27 accesses"),
    (
        LEGACY + "p0 out 4 0cd8 00000000\np0 out 4 0cd8 00000000\np0 out 1 0cdd 00\np0 in 4 0cd8 = 00000003\n",
        "boot        refused, NotModern: command data 2 read 00000003",
    ),
    (MODERN + BOOT + "end 27\n", "boot        handed over after 27 accesses"),
    (MODERN + "end 0\n", "boot        not at its end: 0 of 27 accesses"),
]

# a session of 512 processors, all there at boot, with a TSEG of 48 MiB: it begins at 05000000, and slot k's tile at 05020000 +
# k * 10000. All follow the call. Processor 7 isn't seen, at three looks
MANY = 512
SLOTS = range(1, MANY)


def many_processors():
    """The trace."""
    places = ",".join(map(str, range(MANY)))
    yield f"platform apic={places} boot={places} low=08000000 tseg=48 features=7 polls=3 turns=0 modern=true smram=true delivery=prompt x2apic=true"
    yield from BOOT.replace("9c 02\n", "9c 02\np0 cfgw 50 ff\np0 cfgr 50 = 30\n").replace("9e 01", "9e 07").splitlines()
    yield "p0 out 1 00b2 05"
    yield "p0 smi"
    yield from (f"p{slot} smi" for slot in SLOTS)
    yield "p0 @05028000 store 1 05004000 01"
    for slot in SLOTS:
        yield f"p0 @05028004 store 1 {0x5001000 + slot:08x} 00"
        yield f"p{slot} @{0x5028000 + slot * 0x10000:08x} store 1 {0x5000000 + slot:08x} 01"
    yield "p0 @05028008 icr 00000000 000c0200"
    for slot in SLOTS:
        yield from [f"p0 @0502800c load 1 {0x5000000 + slot:08x} = {'00' if slot == 7 else '01'}"] * (3 if slot == 7 else 1)
    yield "p0 @05028010 in 1 00b2 = 05"
    yield "p0 @0502808c store 1 05004000 00"
    yield from (f"p0 @05028090 store 1 {0x5001000 + slot:08x} 01" for slot in SLOTS)
    yield "p0 @05028094 rsm"


# what its chart says: two lanes, each sweep over the slots in one row, and what the others do beside the row before
MANY_CHARTED = [
    "p0, the monarch",
    "511 others",
    "p1 to p511",
    "boot: 29 accesses",
    "APM_CNT ← 5",
    "takes the SMI ×511",
    "release[1 to 511] ← 0  ×511",
    "R1 ×511",
    "arrived[1 to 511] → 1 of 510, 0 of 1  ×513",
    "release[1 to 511] ← 1  ×511",
]
MANY_WIDTH, MANY_HEIGHT = 800, 320
