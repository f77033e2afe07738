/* Tells which port of the system's own a program listens at, as a program for fentry of the kernel's inet_listen does: the port if it is below
   1024, else 0. Of the kernel's structs it declares what it needs, as vmlinux.h has it. */
typedef unsigned short u16, __be16;
typedef unsigned long long u64;

#pragma clang attribute push(__attribute__((preserve_access_index)), apply_to = record)
struct sock_common { u16 skc_family; };
struct sock { struct sock_common __sk_common; };
struct inet_sock { struct sock sk; __be16 inet_sport; };
struct socket { short type; struct sock *sk; };
#pragma clang attribute pop

__attribute__((section("fentry/inet_listen"))) int port_of(u64 *arguments) {
    struct socket *socket = (struct socket *)arguments[0];
    struct inet_sock *inet = (struct inet_sock *)socket->sk;
    if (socket->sk->__sk_common.skc_family != 2)
        return 0;
    return inet->inet_sport < 1024 ? inet->inet_sport : 0;
}
