/* There are no sockets: their types are here for what asks whether they are. */
#ifndef SYS_SOCKET_H
#define SYS_SOCKET_H
#include <sys/types.h>
#ifdef __cplusplus
extern "C" {
#endif
typedef unsigned socklen_t;
typedef unsigned short sa_family_t;
struct sockaddr { sa_family_t sa_family; char sa_data[14]; };
#ifdef __cplusplus
}
#endif
#endif
