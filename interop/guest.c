/* The first and only program of a guest with Linux's X.25 (net/x25, lapb, lapbether): commands come on the console, one a line, and
 * what happens is written there. Each circuit has a number, its slot, the first that is free, from 0.
 *
 *   link                      takes eth0 and lapb0 up, and makes a route to lapb0 for all addresses: "linked"
 *   down                      takes lapb0 down: "down"
 *   tun                       the same with x25tun, a device of tun, whose packets go to and come from Ethernet as lapbether's frames do: "linked"
 *   facilities IN OUT WIN WOUT  the packet sizes (log 2) and windows of the sockets that follow; 0 0 0 0 sets none: "set"
 *   options THROUGHPUT REVERSE CALLING CALLED  the other facilities of these: two octets in hexadecimal digits, 0 for none, and address
 *                             extensions as digits, - for none: "set"
 *   echo 0|1                  whether circuits that are opened from now on send back what they take: "set"
 *   qbit 0|1                  whether their messages begin with an octet that is the Q bit: "set"
 *   listen ADDRESS            "listening"; each call that comes is accepted: "accepted SLOT .."
 *   call FROM TO DATA         "connected SLOT .." or "refused .."; DATA is hexadecimal digits or -
 *   given SLOT                what the other end gave with its call or its acceptance: "given THROUGHPUT REVERSE CALLING CALLED DATA"
 *   send SLOT LENGTH SEED     a message whose octet at i is i * 7 + SEED, modulo 256
 *   interrupt SLOT OCTET      an interrupt
 *   close SLOT                clears the circuit: "closing SLOT"
 *   quit                      switches the guest off
 *
 * Of what comes: "message SLOT len=N", "interrupt SLOT OCTET", "closed SLOT ..". What fails: "@ ..".
 */
#define _GNU_SOURCE
#include <arpa/inet.h>
#include <errno.h>
#include <fcntl.h>
#include <linux/if_ether.h>
#include <linux/if_packet.h>
#include <linux/if_tun.h>
#include <linux/sockios.h>
#include <linux/x25.h>
#include <net/if.h>
#include <net/if_arp.h>
#include <poll.h>
#include <pthread.h>
#include <stdio.h>
#include <stdlib.h>
#include <string.h>
#include <sys/ioctl.h>
#include <sys/mount.h>
#include <sys/reboot.h>
#include <sys/socket.h>
#include <sys/stat.h>
#include <sys/syscall.h>
#include <termios.h>
#include <unistd.h>

#define MOST_CIRCUITS 256
#define MOST_OCTETS 200000
#define MOST_FRAME 1514
/* What stands before a frame in Ethernet as lapbether has it, and before one of a tun device. */
#define HEADER 16
#define FRONT sizeof(struct tun_pi)

static pthread_mutex_t console = PTHREAD_MUTEX_INITIALIZER;
#define say(...) do { \
    pthread_mutex_lock(&console); \
    printf(__VA_ARGS__); \
    printf("\n"); \
    fflush(stdout); \
    pthread_mutex_unlock(&console); \
} while (0)

static pthread_mutex_t opening = PTHREAD_MUTEX_INITIALIZER;
/* The sockets of circuits, by their slots; 0 is none. */
static int circuits[MOST_CIRCUITS];
static volatile char is_closing[MOST_CIRCUITS];
static int is_echo, is_qbit;
static int sizes[4];
static unsigned throughput, reverse;
static struct x25_dte_facilities extensions;
/* The device of the link, which says what facilities calls may have. */
static const char *device;

static void failed(const char *what) { say("@ %s: %s", what, strerror(errno)); }

static int x25_socket(void) {
    int fd = socket(AF_X25, SOCK_SEQPACKET, 0);
    if (fd < 0) failed("socket");
    return fd;
}

static void load(const char *path) {
    int fd = open(path, O_RDONLY);
    if (fd < 0 || syscall(SYS_finit_module, fd, "", 0)) failed(path);
    if (fd >= 0) close(fd);
}

static void set_up(const char *name, int is_up) {
    struct ifreq request;
    int fd = x25_socket();
    memset(&request, 0, sizeof request);
    strncpy(request.ifr_name, name, IFNAMSIZ - 1);
    if (ioctl(fd, SIOCGIFFLAGS, &request)) failed(name);
    if (is_up) request.ifr_flags |= IFF_UP; else request.ifr_flags &= ~IFF_UP;
    if (ioctl(fd, SIOCSIFFLAGS, &request)) failed(name);
    close(fd);
}

static void make_route(const char *name) {
    struct x25_route_struct route;
    int fd = x25_socket();
    memset(&route, 0, sizeof route);
    strcpy(route.device, name);
    if (ioctl(fd, SIOCADDRT, &route)) failed("route");
    close(fd);
    device = name;
}

/* An address extension: its digits, two in an octet. */
static int put_digits(unsigned char *octets, const char *digits) {
    int count = 0;
    if (digits[0] == '-') return 0;
    for (; digits[count]; count++) octets[count / 2] |= (digits[count] - '0') << (count % 2 ? 0 : 4);
    return count;
}

static void set_options(char **word) {
    struct x25_subscrip_struct it;
    int fd = x25_socket();
    memset(&extensions, 0, sizeof extensions);
    memset(&it, 0, sizeof it);
    throughput = strtoul(word[0], 0, 16);
    reverse = strtoul(word[1], 0, 16);
    extensions.calling_len = put_digits(extensions.calling_ae, word[2]);
    extensions.called_len = put_digits(extensions.called_ae, word[3]);
    strcpy(it.device, device);
    it.global_facil_mask = X25_MASK_REVERSE | X25_MASK_THROUGHPUT | X25_MASK_PACKET_SIZE | X25_MASK_WINDOW_SIZE;
    if (extensions.calling_len) it.global_facil_mask |= X25_MASK_CALLING_AE;
    if (extensions.called_len) it.global_facil_mask |= X25_MASK_CALLED_AE;
    if (ioctl(fd, SIOCX25SSUBSCRIP, &it)) failed("options"); else say("set");
    close(fd);
}

static int tun, ether;

/* What the kernel sends by its device: an octet that says what it is, then a packet. */
static void *from_tun(void *unused) {
    unsigned char octets[MOST_FRAME] = {255, 255, 255, 255, 255, 255, 2, 0, 0, 0, 0, 1, 0x60, 0}, front[HEADER];
    memcpy(front, octets, HEADER);
    for (;;) {
        ssize_t count = read(tun, octets + HEADER - FRONT, MOST_FRAME - HEADER + FRONT) - FRONT;
        if (count < 1) continue;
        memcpy(octets, front, HEADER);
        octets[HEADER - 2] = count & 255;
        octets[HEADER - 1] = count >> 8;
        if (send(ether, octets, HEADER + count, 0) < 0) failed("eth0");
    }
    return unused;
}

static void *to_tun(void *unused) {
    unsigned char octets[MOST_FRAME];
    for (;;) {
        ssize_t count = recv(ether, octets, sizeof octets, 0);
        size_t length = octets[HEADER - 2] | octets[HEADER - 1] << 8;
        struct tun_pi front = {0, htons(ETH_P_X25)};
        if (count < HEADER || length > (size_t)count - HEADER || (octets[6] == 2 && octets[11] == 1)) continue;
        memcpy(octets + HEADER - FRONT, &front, FRONT);
        if (write(tun, octets + HEADER - FRONT, FRONT + length) < 0) failed("x25tun");
    }
    return unused;
}

static void set_up_tun(void) {
    struct ifreq request;
    struct sockaddr_ll place = {.sll_family = AF_PACKET, .sll_protocol = htons(0x6000)};
    pthread_t thread;
    memset(&request, 0, sizeof request);
    strcpy(request.ifr_name, "x25tun");
    request.ifr_flags = IFF_TUN;
    tun = open("/dev/net/tun", O_RDWR);
    if (tun < 0 || ioctl(tun, TUNSETIFF, &request) || ioctl(tun, TUNSETLINK, ARPHRD_X25)) failed("tun");
    set_up("x25tun", 1);
    set_up("eth0", 1);
    ether = socket(AF_PACKET, SOCK_RAW, htons(0x6000));
    place.sll_ifindex = if_nametoindex("eth0");
    if (ether < 0 || bind(ether, (void *)&place, sizeof place)) failed("eth0");
    pthread_create(&thread, 0, from_tun, 0);
    pthread_create(&thread, 0, to_tun, 0);
    make_route("x25tun");
}

/* What each socket has before it listens or calls. */
static void prepare(int fd) {
    struct x25_facilities facilities;
    int on = 1;
    memset(&facilities, 0, sizeof facilities);
    if (is_qbit && setsockopt(fd, SOL_X25, X25_QBITINCL, &on, sizeof on)) failed("qbit");
    if (ioctl(fd, SIOCX25GFACILITIES, &facilities)) failed("facilities");
    if (sizes[0]) {
        facilities.pacsize_in = sizes[0];
        facilities.pacsize_out = sizes[1];
        facilities.winsize_in = sizes[2];
        facilities.winsize_out = sizes[3];
    }
    facilities.throughput = throughput;
    facilities.reverse = reverse;
    if (ioctl(fd, SIOCX25SFACILITIES, &facilities)) failed("facilities");
    if (ioctl(fd, SIOCX25SDTEFACILITIES, &extensions)) failed("extensions");
}

static void tell_end(int slot, const char *why) {
    struct x25_causediag cause;
    memset(&cause, 0, sizeof cause);
    ioctl(circuits[slot], SIOCX25GCAUSEDIAG, &cause);
    say("closed %d %s cause=%d diag=%d", slot, why, cause.cause, cause.diagnostic);
}

struct circuit { int slot, is_echo; };

/* Takes what comes on a circuit until it ends, or is to be closed. It looks again and again, for poll doesn't tell of interrupts, and
 * close lets no socket of X.25 go that recv waits on. */
static void *reader(void *given) {
    struct circuit circuit = *(struct circuit *)given;
    int fd = circuits[circuit.slot];
    unsigned char *octets = malloc(MOST_OCTETS), octet;
    free(given);
    while (!is_closing[circuit.slot]) {
        struct pollfd it = {.fd = fd, .events = POLLIN};
        int is_there = poll(&it, 1, 50) > 0;
        if (recv(fd, &octet, 1, MSG_OOB | MSG_DONTWAIT) == 1) { say("interrupt %d %d", circuit.slot, octet); continue; }
        ssize_t count = recv(fd, octets, MOST_OCTETS, MSG_DONTWAIT);
        if (count < 0 && (errno == EINTR || errno == EAGAIN)) { if (is_there) usleep(20000); continue; }
        if (count <= 0) { tell_end(circuit.slot, count < 0 ? strerror(errno) : "end"); break; }
        say("message %d len=%zd", circuit.slot, count);
        if (circuit.is_echo && send(fd, octets, count, MSG_EOR) != count) failed("echo");
    }
    close(fd);
    if (is_closing[circuit.slot]) say("closing %d", circuit.slot);
    pthread_mutex_lock(&opening);
    circuits[circuit.slot] = is_closing[circuit.slot] = 0;
    pthread_mutex_unlock(&opening);
    free(octets);
    return 0;
}

static void begin(int fd, const char *how, const char *from) {
    struct x25_facilities it;
    struct circuit *circuit = malloc(sizeof *circuit);
    pthread_t thread;
    memset(&it, 0, sizeof it);
    ioctl(fd, SIOCX25GFACILITIES, &it);
    pthread_mutex_lock(&opening);
    for (circuit->slot = 0; circuit->slot < MOST_CIRCUITS - 1 && circuits[circuit->slot]; circuit->slot++) ;
    circuits[circuit->slot] = fd;
    pthread_mutex_unlock(&opening);
    circuit->is_echo = is_echo;
    say("%s %d from=%s size=%u,%u win=%u,%u", how, circuit->slot, from, it.pacsize_in, it.pacsize_out, it.winsize_in, it.winsize_out);
    pthread_create(&thread, 0, reader, circuit);
    pthread_detach(thread);
}

static struct sockaddr_x25 address(const char *digits) {
    struct sockaddr_x25 it;
    memset(&it, 0, sizeof it);
    it.sx25_family = AF_X25;
    strncpy(it.sx25_addr.x25_addr, digits, 15);
    return it;
}

static void *listener(void *given) {
    int fd = *(int *)given;
    free(given);
    for (;;) {
        struct sockaddr_x25 from;
        socklen_t length = sizeof from;
        int circuit = accept(fd, (struct sockaddr *)&from, &length);
        if (circuit >= 0) begin(circuit, "accepted", from.sx25_addr.x25_addr);
        else { failed("accept"); sleep(1); }
    }
    return 0;
}

static void start_to_listen(const char *digits) {
    struct sockaddr_x25 me = address(digits);
    int *fd = malloc(sizeof *fd);
    pthread_t thread;
    *fd = x25_socket();
    prepare(*fd);
    if (bind(*fd, (void *)&me, sizeof me) || listen(*fd, 8)) failed("listen"); else say("listening");
    pthread_create(&thread, 0, listener, fd);
    pthread_detach(thread);
}

/* The words of a call: the own address, the other one, user data. */
static void *caller(void *given) {
    char **words = given;
    struct sockaddr_x25 me = address(words[0]), other = address(words[1]);
    struct x25_calluserdata data;
    int fd = x25_socket();
    prepare(fd);
    memset(&data, 0, sizeof data);
    for (const char *at = words[2]; at[0] && at[1] && sscanf(at, "%2hhx", &data.cuddata[data.cudlength]) == 1; at += 2) data.cudlength++;
    if (data.cudlength && ioctl(fd, SIOCX25SCALLUSERDATA, &data)) failed("user data");
    if (bind(fd, (void *)&me, sizeof me)) failed("bind");
    if (!connect(fd, (void *)&other, sizeof other)) begin(fd, "connected", words[1]);
    else { say("refused %s", strerror(errno)); close(fd); }
    return 0;
}

static void start_to_call(char **words) {
    char **kept = calloc(3, sizeof *kept);
    pthread_t thread;
    for (int i = 0; i < 3; i++) kept[i] = strdup(words[i]);
    pthread_create(&thread, 0, caller, kept);
    pthread_detach(thread);
}

/* The digits of an address extension, - where there are none. */
static const char *digits_of(char *text, const unsigned char *octets, int count) {
    for (int i = 0; i < count; i++) text[i] = '0' + (octets[i / 2] >> (i % 2 ? 0 : 4) & 15);
    text[count] = 0;
    return count ? text : "-";
}

static void tell_given(int slot) {
    struct x25_facilities it;
    struct x25_dte_facilities of_ends;
    struct x25_calluserdata data;
    char calling[256], called[256], octets[2 * sizeof data.cuddata + 2] = "-";
    memset(&it, 0, sizeof it);
    memset(&of_ends, 0, sizeof of_ends);
    memset(&data, 0, sizeof data);
    if (ioctl(circuits[slot], SIOCX25GFACILITIES, &it)) failed("facilities");
    if (ioctl(circuits[slot], SIOCX25GDTEFACILITIES, &of_ends)) failed("extensions");
    if (ioctl(circuits[slot], SIOCX25GCALLUSERDATA, &data)) failed("user data");
    for (unsigned i = 0; i < data.cudlength; i++) sprintf(octets + 2 * i, "%02x", data.cuddata[i]);
    say("given %x %x %s %s %s", it.throughput, it.reverse, digits_of(calling, of_ends.calling_ae, of_ends.calling_len),
        digits_of(called, of_ends.called_ae, of_ends.called_len), octets);
}

static void send_message(int slot, int length, int seed) {
    unsigned char *octets = malloc(length + 1);
    for (int i = 0; i < length; i++) octets[i] = i * 7 + seed;
    if (send(circuits[slot], octets, length, MSG_EOR) != length) failed("send");
    free(octets);
}

static void send_interrupt(int slot, int octet) {
    unsigned char it = octet;
    if (send(circuits[slot], &it, 1, MSG_OOB | MSG_EOR) != 1) failed("interrupt");
}

/* A line of the console, cut into words; those that are missing are empty. */
static void obey(char **word) {
    if (!strcmp(word[0], "link")) { set_up("eth0", 1); usleep(200000); set_up("lapb0", 1); usleep(100000); make_route("lapb0"); say("linked"); }
    else if (!strcmp(word[0], "tun")) { set_up_tun(); say("linked"); }
    else if (!strcmp(word[0], "down")) { set_up("lapb0", 0); say("down"); }
    else if (!strcmp(word[0], "facilities")) { for (int i = 0; i < 4; i++) sizes[i] = atoi(word[i + 1]); say("set"); }
    else if (!strcmp(word[0], "options")) set_options(word + 1);
    else if (!strcmp(word[0], "echo")) { is_echo = atoi(word[1]); say("set"); }
    else if (!strcmp(word[0], "qbit")) { is_qbit = atoi(word[1]); say("set"); }
    else if (!strcmp(word[0], "listen")) start_to_listen(word[1]);
    else if (!strcmp(word[0], "call")) start_to_call(word + 1);
    else if (!strcmp(word[0], "given")) tell_given(atoi(word[1]));
    else if (!strcmp(word[0], "send")) send_message(atoi(word[1]), atoi(word[2]), atoi(word[3]));
    else if (!strcmp(word[0], "interrupt")) send_interrupt(atoi(word[1]), atoi(word[2]));
    else if (!strcmp(word[0], "close")) is_closing[atoi(word[1])] = 1;
    else if (!strcmp(word[0], "quit")) reboot(RB_POWER_OFF);
    else if (word[0][0]) say("@ what? %s", word[0]);
}

static void open_console(void) {
    struct termios mode;
    int fd = open("/dev/ttyS0", O_RDWR);
    for (int i = 0; i < 3; i++) dup2(fd, i);
    tcgetattr(0, &mode);
    mode.c_lflag &= ~(ECHO | ECHOE);
    mode.c_oflag &= ~ONLCR;
    tcsetattr(0, TCSANOW, &mode);
}

int main(void) {
    static char line[1024];
    mkdir("/proc", 0755);
    mkdir("/sys", 0755);
    mkdir("/dev", 0755);
    mount("proc", "/proc", "proc", 0, "");
    mount("sys", "/sys", "sysfs", 0, "");
    mount("dev", "/dev", "devtmpfs", 0, "");
    open_console();
    FILE *modules = fopen("/modules", "r");
    while (modules && fgets(line, sizeof line, modules)) { line[strcspn(line, "\n")] = 0; load(line); }
    usleep(300000);
    say("\nready");
    while (fgets(line, sizeof line, stdin)) {
        char *word[6] = {"", "", "", "", "", ""};
        int count = 0;
        for (char *at = strtok(line, " \r\n"); at && count < 6; at = strtok(0, " \r\n")) word[count++] = at;
        obey(word);
    }
    for (;;) pause();
}
