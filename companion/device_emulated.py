"""What an emulated processor needs: where things lie, and the script that builds and runs the test on it."""
from __future__ import annotations

LINKER = """/* where the emulated processors have their memory */
ENTRY(start)
MEMORY {
  FLASH (rx) : ORIGIN = 0x00000000, LENGTH = 256K
  RAM (rwx) : ORIGIN = 0x20000000, LENGTH = 16K
}
SECTIONS {
  .vectors : { KEEP(*(.vectors)) } > FLASH
  .text : { *(.text*) *(.rodata*) } > FLASH
  .data : { *(.data*) } > RAM
  .bss : { *(.bss*) *(COMMON) } > RAM
  /DISCARD/ : { *(.ARM.exidx*) *(.ARM.extab*) }
}
"""


def emulated_script(build: str, compiler: str, hint: str) -> str:
    """Returns the script that builds the test for a Cortex-M0 and an M4, by a function `build`, and runs it under
    qemu."""
    return f"""#!/bin/sh
# the rows on an emulated Cortex-M0 and M4; it says loudly what isn't there
cd "$(dirname "$0")" || exit 1
mkdir -p build
qemu=${{QEMU:-qemu-system-arm}}

lacking() {{
  echo "test-emulated.sh: NOT RUN$1" >&2
  exit 77
}}

command -v "$qemu" > /dev/null || lacking ": qemu-system-arm isn't there (Debian: qemu-system-arm)"

{build}

for kind in cortex-m0:microbit cortex-m4:mps2-an386; do
  cpu=${{kind%%:*}}
  build $cpu || lacking " on $cpu: it isn't built; is {compiler} there for it? {hint}"
  printf '%s: ' "$cpu"
  timeout 60 "$qemu" ${{QEMU_FLAGS-}} -M "${{kind##*:}}" -nographic -monitor none -serial none \\
    -semihosting-config enable=on,target=native -kernel build/$cpu.elf 2>&1 || exit 1
done
"""
