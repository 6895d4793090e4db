/* For a static program for Linux on 64-bit ARM: the system's answer about the processor is the macro HWCAP. */
#include <sys/auxv.h>

unsigned long __getauxval(unsigned long type);

unsigned long getauxval(unsigned long type) { return type == AT_HWCAP ? HWCAP : __getauxval(type); }
