/* No device has settings here: ioctl fails (lacks.c). */
#ifndef SYS_IOCTL_H
#define SYS_IOCTL_H
#ifdef __cplusplus
extern "C" {
#endif
struct winsize { unsigned short ws_row, ws_col, ws_xpixel, ws_ypixel; };
#define TIOCGWINSZ 0x5413
int ioctl(int descriptor, unsigned long what, ...);
#ifdef __cplusplus
}
#endif
#endif
