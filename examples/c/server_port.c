/*
 * The sockets of a port, and which gets a packet: see server.h.
 *
 * All are one group of SO_REUSEPORT, and a program in the kernel takes one by the peer's address
 * and port, as port_thread does. So each thread knows whose a peer is, also when the next process
 * has more threads or fewer.
 */
#define _GNU_SOURCE
#include "server.h"

#include <arpa/inet.h>
#include <linux/filter.h>
#include <string.h>
#include <sys/socket.h>

/* They spread neighbouring addresses and ports. */
#define OF_ADDRESS 0x9e3779b1u
#define OF_PORT 0x85ebca6bu

int port_open(uint16_t port) {
    struct sockaddr_in at;
    const int size = 4 << 20, on = 1;
    int file = socket(AF_INET, SOCK_DGRAM | SOCK_CLOEXEC, 0);
    memset(&at, 0, sizeof at);
    at.sin_family = AF_INET;
    at.sin_port = htons(port);
    at.sin_addr.s_addr = htonl(INADDR_LOOPBACK);
    if (file < 0 || setsockopt(file, SOL_SOCKET, SO_REUSEPORT, &on, sizeof on) != 0 ||
        bind(file, (struct sockaddr *)&at, sizeof at) != 0)
        fail("socket");
    setsockopt(file, SOL_SOCKET, SO_RCVBUF, &size, sizeof size);
    return file;
}

uint16_t port_number(int file) {
    struct sockaddr_in at;
    socklen_t length = sizeof at;
    if (getsockname(file, (struct sockaddr *)&at, &length) != 0)
        fail("getsockname");
    return ntohs(at.sin_port);
}

unsigned port_thread(const struct sockaddr_in *peer, unsigned threads) {
    uint32_t mixed = ntohl(peer->sin_addr.s_addr) * OF_ADDRESS ^ ntohs(peer->sin_port) * OF_PORT;
    return (mixed ^ mixed >> 16) % threads;
}

int port_steer(int file, unsigned threads) {
    struct sock_filter lines[] = {
        /* the address from the header of IP, and the port from that of UDP behind it */
        BPF_STMT(BPF_LD | BPF_W | BPF_ABS, (uint32_t)SKF_NET_OFF + 12),
        BPF_STMT(BPF_ALU | BPF_MUL | BPF_K, OF_ADDRESS),
        BPF_STMT(BPF_ST, 0),
        BPF_STMT(BPF_LD | BPF_H | BPF_ABS, (uint32_t)SKF_NET_OFF + 20),
        BPF_STMT(BPF_ALU | BPF_MUL | BPF_K, OF_PORT),
        BPF_STMT(BPF_LDX | BPF_MEM, 0),
        BPF_STMT(BPF_ALU | BPF_XOR | BPF_X, 0),
        BPF_STMT(BPF_MISC | BPF_TAX, 0),
        BPF_STMT(BPF_ALU | BPF_RSH | BPF_K, 16),
        BPF_STMT(BPF_ALU | BPF_XOR | BPF_X, 0),
        BPF_STMT(BPF_ALU | BPF_MOD | BPF_K, threads),
        BPF_STMT(BPF_RET | BPF_A, 0),
    };
    struct sock_fprog program;
    memset(&program, 0, sizeof program); /* (it has bytes between its fields) */
    program.len = sizeof lines / sizeof lines[0];
    program.filter = lines;
    return setsockopt(file, SOL_SOCKET, SO_ATTACH_REUSEPORT_CBPF, &program, sizeof program);
}
