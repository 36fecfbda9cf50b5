/* Messages as the BSDs have them (lacks.c). */
#ifndef ERR_H
#define ERR_H
#ifdef __cplusplus
extern "C" {
#endif
void warn(const char *format, ...) __attribute__((format(printf, 1, 2)));
void warnx(const char *format, ...) __attribute__((format(printf, 1, 2)));
void err(int code, const char *format, ...) __attribute__((noreturn, format(printf, 2, 3)));
void errx(int code, const char *format, ...) __attribute__((noreturn, format(printf, 2, 3)));
#ifdef __cplusplus
}
#endif
#endif
