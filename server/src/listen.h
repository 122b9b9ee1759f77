// SPDX-License-Identifier: MIT
/* The sockets that connections come to. */
#ifndef LISTEN_H
#define LISTEN_H

#include "server.h"

/* Opens a socket for each address of the options, or the UNIX socket. False, and said on standard error, if one
 * can't be had. */
bool listen_open(struct server *server);

/* Writes where connections come to, as `127.0.0.1:11211, [::1]:11211` or the UNIX socket's file, into a text. */
void listen_places(const struct server *server, char *text, size_t room);

/* Writes the ports to the file that MEMCACHED_PORT_FILENAME names, if it does. False, and said, if it can't. */
bool listen_tell_ports(const struct server *server);

/* Accepts connections until a signal comes that ends the server, and hands them to the workers by turns. One too many gets a line
 * that says so. */
void listen_accept(struct server *server, int signals);

/* Closes the sockets, and takes the UNIX socket's file away. */
void listen_close(struct server *server);

#endif
