/* What <termios.h> of picolibc leaves to a system: there is no terminal. */
#ifndef SYS_TERMIOS_H
#define SYS_TERMIOS_H
typedef unsigned char cc_t;
typedef unsigned speed_t, tcflag_t;
#define NCCS 32
struct termios { tcflag_t c_iflag, c_oflag, c_cflag, c_lflag; cc_t c_line, c_cc[NCCS]; speed_t c_ispeed, c_ospeed; };
#endif
