/*
 * A file system of its own for a program (FUSE), whose reads go past the page cache though nobody asks for that, and take a while. Words:
 *
 *     slow_files FOLDER MILLISECONDS PROGRAM WORDS..
 *
 * FOLDER/file can be read and is full of the letter D. Whoever runs this has a namespace of mounts for it (unshare -m). It lasts as long as the
 * program. Status 77 where the system has no such file systems.
 */
#define _GNU_SOURCE
#include <errno.h>
#include <fcntl.h>
#include <linux/fuse.h>
#include <poll.h>
#include <stdbool.h>
#include <stdio.h>
#include <stdlib.h>
#include <string.h>
#include <sys/mount.h>
#include <sys/stat.h>
#include <sys/syscall.h>
#include <sys/uio.h>
#include <unistd.h>

enum { LEFT_OUT = 77, ROOM = 1 << 17, FILE_BYTES = 1 << 20, ROOT = 1, THE_FILE = 2, FOR_LONG = 1000 };

static int device;
static useconds_t read_us;

static void reply(uint64_t unique, int error, const void *data, size_t bytes) {
    struct fuse_out_header head = {.len = (uint32_t)(sizeof head + bytes), .error = error, .unique = unique};
    const struct iovec parts[] = {{&head, sizeof head}, {(void *)(uintptr_t)data, bytes}};
    if (writev(device, parts, bytes > 0 ? 2 : 1) < 0 && errno != ENOENT) perror("a reply"); /* (the caller may be gone) */
}

static struct fuse_attr facts_of(uint64_t node) {
    bool is_root = node == ROOT;
    return (struct fuse_attr){
        .ino = node, .mode = is_root ? S_IFDIR | 0755 : S_IFREG | 0644, .nlink = 1, .size = is_root ? 0 : FILE_BYTES};
}

static void answer_name(uint64_t unique, const char *name) {
    struct fuse_entry_out entry = {
        .nodeid = THE_FILE, .attr_valid = FOR_LONG, .entry_valid = FOR_LONG, .attr = facts_of(THE_FILE)};
    if (strcmp(name, "file") == 0) reply(unique, 0, &entry, sizeof entry);
    else reply(unique, -ENOENT, NULL, 0);
}

static void answer_read(uint64_t unique, const struct fuse_read_in *asked) {
    static char data[ROOM];
    memset(data, 'D', sizeof data);
    usleep(read_us);
    reply(unique, 0, data, asked->size < sizeof data ? asked->size : sizeof data);
}

static void answer(const struct fuse_in_header *head, const void *with) {
    const struct fuse_init_out init = {.major = FUSE_KERNEL_VERSION, .minor = 31, .max_write = ROOM / 2, .max_background = 8};
    const struct fuse_attr_out facts = {.attr_valid = FOR_LONG, .attr = facts_of(head->nodeid)};
    const struct fuse_open_out open_one = {.fh = 1, .open_flags = FOPEN_DIRECT_IO};
    switch (head->opcode) {
    case FUSE_INIT: return reply(head->unique, 0, &init, sizeof init);
    case FUSE_LOOKUP: return answer_name(head->unique, with);
    case FUSE_GETATTR: return reply(head->unique, 0, &facts, sizeof facts);
    case FUSE_OPEN: return reply(head->unique, 0, &open_one, sizeof open_one);
    case FUSE_READ: return answer_read(head->unique, with);
    case FUSE_RELEASE:
    case FUSE_FLUSH:
    case FUSE_ACCESS: return reply(head->unique, 0, NULL, 0);
    case FUSE_FORGET:
    case FUSE_BATCH_FORGET:
    case FUSE_INTERRUPT: return; /* (nobody waits) */
    default: return reply(head->unique, -ENOSYS, NULL, 0);
    }
}

/* Serves as long as a process lives. */
static void serve(int program) {
    static _Alignas(struct fuse_in_header) char packet[ROOM];
    struct pollfd either[] = {{.fd = device, .events = POLLIN}, {.fd = program, .events = POLLIN}};
    while (poll(either, 2, -1) >= 0 && either[1].revents == 0) {
        ssize_t got = read(device, packet, sizeof packet);
        if (got >= (ssize_t)sizeof(struct fuse_in_header)) answer((const void *)packet, packet + sizeof(struct fuse_in_header));
        else if (errno == ENODEV) break;
    }
    _exit(0);
}

int main(int count, char **words) {
    char options[128];
    if (count < 4) return fputs("slow_files: FOLDER MILLISECONDS PROGRAM WORDS..\n", stderr), 2;
    read_us = (useconds_t)(1000 * strtoul(words[2], NULL, 10));
    device = open("/dev/fuse", O_RDWR | O_CLOEXEC | O_NONBLOCK);
    snprintf(options, sizeof options, "fd=%d,rootmode=40000,user_id=0,group_id=0,allow_other", device);
    if (device < 0 || mount("slow", words[1], "fuse", MS_NOSUID | MS_NODEV, options) != 0)
        return printf("left out: FUSE: %s\n", strerror(errno)), LEFT_OUT;
    int program = (int)syscall(SYS_pidfd_open, getpid(), 0);
    pid_t server = fork();
    if (server == 0) close_range(0, 1, 0), serve(program);
    if (server < 0) return perror("fork"), 2;
    execvp(words[3], words + 3);
    return perror(words[3]), 2;
}
