/* Process 1 of the user-mode kernel: it mounts /proc, loads the modules of /lib/order in this order, and gives the network card its address.
 * An error is a line on standard output, which begins with `err`. */
#include "init.h"

#include <arpa/inet.h>
#include <errno.h>
#include <fcntl.h>
#include <linux/ethtool.h>
#include <linux/sockios.h>
#include <net/if.h>
#include <stdio.h>
#include <string.h>
#include <sys/ioctl.h>
#include <sys/mount.h>
#include <sys/reboot.h>
#include <sys/socket.h>
#include <sys/syscall.h>
#include <termios.h>
#include <unistd.h>

#define CARD "vec0"

static void check(int result, const char *what) {
    if (result < 0) printf("err %s: %s\n", what, strerror(errno));
}

static void load(const char *name) {
    char path[300];
    snprintf(path, sizeof path, "/lib/%s", name);
    int file = open(path, O_RDONLY | O_CLOEXEC);
    check(file, path);
    check((int)syscall(SYS_finit_module, file, "", 0), name);
    close(file);
}

static void load_modules(void) {
    char name[200];
    FILE *order = fopen("/lib/order", "r");
    check(order ? 0 : -1, "/lib/order");
    while (order && fscanf(order, "%199s", name) == 1) load(name);
    if (order) fclose(order);
}

static void set_address(int by, struct ifreq *request, unsigned long call, const char *text) {
    struct sockaddr_in address = { .sin_family = AF_INET };
    inet_pton(AF_INET, text, &address.sin_addr);
    memcpy(&request->ifr_addr, &address, sizeof address);
    check(ioctl(by, call, request), text);
}

static void bring_up(const char *card, const char *address) {
    struct ifreq request = { 0 };
    int by = socket(AF_INET, SOCK_DGRAM | SOCK_CLOEXEC, 0);
    check(by, card);
    snprintf(request.ifr_name, sizeof request.ifr_name, "%s", card);
    set_address(by, &request, SIOCSIFADDR, address);
    set_address(by, &request, SIOCSIFNETMASK, "255.255.255.0");
    check(ioctl(by, SIOCGIFFLAGS, &request), card);
    request.ifr_flags |= IFF_UP;
    check(ioctl(by, SIOCSIFFLAGS, &request), card);
    close(by);
}

void set_gso(int is_on) {
    struct ethtool_value value = { ETHTOOL_SGSO, (unsigned)is_on };
    struct ifreq request = { .ifr_data = (char *)&value };
    int by = socket(AF_INET, SOCK_DGRAM | SOCK_CLOEXEC, 0);
    snprintf(request.ifr_name, sizeof request.ifr_name, "%s", CARD);
    check(ioctl(by, SIOCETHTOOL, &request), "gso");
    close(by);
}

void set_up(void) {
    struct termios console;
    if (tcgetattr(0, &console) == 0) cfmakeraw(&console), tcsetattr(0, TCSANOW, &console);
    check(mount("proc", "/proc", "proc", 0, NULL), "/proc");
    load_modules();
    bring_up(CARD, "10.0.0.2");
}

void power_off(void) {
    sync();
    reboot(RB_POWER_OFF);
}
