"""What the runtime's own functions take, in bytes: they are not in the archive, and another runtime has others.

Read from the disassembly of the archives that Debian 12 links, every push and lowering of the stack on the longest way,
a return address included where a call pushes one:
  Arm     libgcc.a of gcc-arm-none-eabi 12.2 and libc.a of libnewlib-arm-none-eabi 3.3, thumb/v7e-m+dp/hard and thumb/v7e-m/nofp
  others  libc.a of glibc 2.36, every variant of the two: none of them touches the stack
"""
from .state import Unknown

ARM = {
    "__aeabi_memset": 12, "__aeabi_memclr": 12, "memset": 12,
    "__aeabi_memcpy": 0, "memcpy": 0,
    "__aeabi_memmove": 16, "memmove": 16,
    "__aeabi_uldivmod": 48,    # 16, and 32 of __udivmoddi4
    "__aeabi_ul2d": 12, "__aeabi_ui2d": 12, "__aeabi_l2d": 12,
    "__aeabi_dadd": 12, "__aeabi_dsub": 12,
    "__aeabi_dmul": 16, "__aeabi_ddiv": 16,
    "__aeabi_dcmp": 20,        # 8, and 8 of __aeabi_cdcmple, and 4 of __cmpdf2
    "__aeabi_dcmpun": 0,
}
TABLES = {
    "elf64-x86-64": {"memset": 8, "memcpy": 8, "memmove": 8},
    "elf64-littleaarch64": {"memset": 0, "memcpy": 0, "memmove": 0},
    "elf32-littlearm": ARM,
}


def allowance(kind, name):
    """Bytes of one of the runtime's functions; Arm's come in variants for aligned memory and for each comparison."""
    table = TABLES[kind]
    for known in (name, name.rstrip("48"), name[:-2] if name.startswith("__aeabi_dcmp") else name):
        if known in table:
            return table[known]
    raise Unknown(f"{name} is not in the archive, and bench/stacks/helpers.py does not say what it takes")
