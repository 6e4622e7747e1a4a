# A toolchain file for a riscv32 by Debian's riscv64-unknown-elf-gcc with picolibc: cmake --toolchain .../examples/bare/riscv32.cmake. The
# library needs integers, multiplication and nothing more: -march=rv32imc does too.
set(CMAKE_SYSTEM_NAME Generic)
set(CMAKE_SYSTEM_PROCESSOR riscv32)
set(CMAKE_C_COMPILER riscv64-unknown-elf-gcc)
set(CMAKE_CXX_COMPILER riscv64-unknown-elf-g++)
set(CMAKE_ASM_COMPILER riscv64-unknown-elf-gcc)
foreach(language C CXX ASM)
  set(CMAKE_${language}_FLAGS_INIT "--specs=picolibc.specs -march=rv32imac -mabi=ilp32 -mcmodel=medany -ffunction-sections -fdata-sections")
endforeach()
set(CMAKE_TRY_COMPILE_TARGET_TYPE STATIC_LIBRARY)
set(CMAKE_FIND_ROOT_PATH_MODE_PROGRAM NEVER)
set(CMAKE_FIND_ROOT_PATH_MODE_LIBRARY ONLY)
set(CMAKE_FIND_ROOT_PATH_MODE_INCLUDE ONLY)
