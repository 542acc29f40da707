/*
 * Two guests of a few instructions in real mode: they fill pages, read them while they are lent and shared, and write to them.
 * Prints "tiny: ok" (status 0), or a line for each thing that isn't so and "tiny: WRONG" (status 1).
 */
#define _GNU_SOURCE
#include "../window/lender/domain_lender.h"
#include "../window/window.h"
#include "failure.h"
#include "vm.h"
#include <stdlib.h>
#include <string.h>
#include <sys/mman.h>

/*
 * Each stage ends with hlt. The guest's digit stands at 0x1000. Page 16 gets letters A in both guests, page 17 the digit, page 18
 * zeros; what the guest reads goes to port 0xe9.
 */
__asm__(".pushsection .rodata\n"
        ".code16\n"
        ".globl tiny_begin, tiny_end\n"
        "tiny_begin:\n"
        "  xor %ax, %ax\n  mov %ax, %ds\n  mov $0x1000, %ax\n  mov %ax, %es\n  cld\n"
        "  xor %di, %di\n  mov $4096, %cx\n  mov $'A', %al\n  rep stosb\n"
        "  mov $4096, %cx\n  mov 0x1000, %al\n  rep stosb\n"
        "  mov $4096, %cx\n  mov $0, %al\n  rep stosb\n"
        "  hlt\n"
        "  mov $0xe9, %dx\n"
        "  mov %es:0x0fff, %al\n  out %al, %dx\n  mov %es:0x1000, %al\n  out %al, %dx\n  mov %es:0x2800, %al\n  out %al, %dx\n"
        "  hlt\n"
        "  movb $'B', %es:5\n"
        "  hlt\n"
        "  movb $'C', %es:6\n"
        "  mov %es:5, %al\n  out %al, %dx\n  mov %es:6, %al\n  out %al, %dx\n  mov %es:7, %al\n  out %al, %dx\n"
        "  hlt\n"
        "tiny_end:\n"
        ".code64\n"
        ".popsection\n");
extern const uint8_t tiny_begin[], tiny_end[];

enum { GUESTS = 2, PAGES = 64, FRAMES = 512, CODE = 0x2000, DIGIT = 0x1000, PORT = 0xe9, FIRST = 16, LOOKS = 8 };
enum { PAGE = WINDOW_PAGE_BYTES, LETTERS = FIRST, DIGITS, ZEROS };

static struct lender *lender;
static struct windows *windows;
static struct window *window[GUESTS];
static uint8_t *ram[GUESTS];
static struct vm vms[GUESTS];
static char heard[GUESTS][16];
static int wrong;

static bool wrote(struct processor *processor, uint16_t port, uint8_t byte) {
    char *text = heard[processor->vm->number];
    size_t length = strlen(text);
    if (port == PORT && length + 1 < sizeof heard[0]) text[length] = byte == 0 ? '.' : (char)byte;
    return true;
}

static void check(bool is_so, const char *what) {
    if (is_so) return;
    printf("not so: %s\n", what);
    wrong++;
}

/* Runs a guest until its next hlt. */
static void stage(unsigned guest) {
    check(vm_start(&vms[guest]), "a guest's thread starts");
    vm_join(&vms[guest]);
    check(atomic_load(&vms[guest].processors[0].end) == VM_HALTED, "a guest halts at its stage's end");
}

static bool make(unsigned guest) {
    const size_t bytes = (size_t)PAGES * PAGE;
    void *at = mmap(NULL, bytes, PROT_READ | PROT_WRITE, MAP_PRIVATE | MAP_ANONYMOUS, -1, 0);
    if (at == MAP_FAILED || window_make(&window[guest], windows, at, bytes, WINDOW_NO_CHILD).status != WINDOW_OK) return false;
    ram[guest] = at;
    vms[guest] = (struct vm){.number = guest, .wrote = wrote, .kvm = -1, .fd = -1};
    if (!vm_make(&vms[guest], at, bytes, 1)) return false;
    memcpy(ram[guest] + CODE, tiny_begin, (size_t)(tiny_end - tiny_begin));
    ram[guest][DIGIT] = (uint8_t)('0' + guest);
    return vm_set_real(&vms[guest], CODE);
}

static void look(int looks) {
    for (int i = 0; i < looks; i++) check(windows_look(windows).status == WINDOW_OK, "a look comes out well");
}

/* Whether so many pages of letters are lent, in one frame, and so many copies were found. */
static bool has(size_t lent, uint64_t copied) {
    struct windows_counts counts;
    size_t found = 0;
    windows_count(windows, &counts);
    for (unsigned i = 0; i < GUESTS; i++) found += window_page_is(window[i], LETTERS) == WINDOW_PAGE_LENT ? 1 : 0;
    return found == lent && counts.copied == copied;
}

static void check_lent(void) {
    for (unsigned i = 0; i < GUESTS; i++) stage(i);
    look(LOOKS);
    check(has(2, 0), "the letters of both are lent");
    for (unsigned i = 0; i < GUESTS; i++) {
        check(window_page_is(window[i], DIGITS) == WINDOW_PAGE_PRIVATE, "a page that nobody else has stays where it is");
        check(window_page_is(window[i], ZEROS) == WINDOW_PAGE_ZERO, "zeros are given back");
        stage(i);
    }
    check(strcmp(heard[0], "A0.") == 0 && strcmp(heard[1], "A1.") == 0, "the guests read what they wrote");
    look(1);
    check(has(2, 0), "reading copies nothing");
}

static void check_copied(void) {
    struct pageshare_domain_totals totals;
    struct lender_counts before, after;
    stage(0);
    check(ram[1][(size_t)PAGE * FIRST + 5] == 'A', "the other guest keeps its letters");
    look(1);
    check(has(1, 1), "a write makes a copy, which the next look finds");
    stage(0);
    look(1);
    check(has(1, 1), "a write to a private page copies nothing");
    lender_count(lender, &totals, &before);
    stage(1);
    stage(1);
    look(1);
    check(has(0, 2), "the last page of a frame is copied");
    check(strcmp(heard[0], "A0.BCA") == 0 && strcmp(heard[1], "A1.BCA") == 0, "both read their writes");
    check(lender_trim(lender) == 0, "free frames are given back");
    lender_count(lender, &totals, &after);
    check(before.frame_bytes > after.frame_bytes, "and their memory");
    look(LOOKS);
    check(has(2, 2), "the pages, which are equal again, are lent again");
}

int main(void) {
    const struct lender_config config = {.slots = FRAMES, .frames = FRAMES, .recent = FRAMES, .hash = PAGESHARE_FOLD};
    const struct windows_config never = {.pins = WINDOWS_PINS_NEVER};
    bool made = lender_make(&lender, &config).status == LENDER_OK && windows_make(&windows, &never).status == WINDOW_OK;
    made = made && windows_attach(windows, lender_interface(lender)).status == WINDOW_OK;
    for (unsigned i = 0; i < GUESTS; i++) vms[i] = VM_NONE;
    vm_stop(&vms[0]);
    vm_free(&vms[0]); /* (one that was never made) */
    for (unsigned i = 0; i < GUESTS && made; i++) made = make(i);
    check(made, "two machines are made");
    if (made) check_lent();
    if (made && wrong == 0) check_copied();
    for (unsigned i = 0; i < GUESTS; i++) {
        vm_free(&vms[i]);
        window_free(window[i], WINDOW_DROP);
    }
    windows_free(windows);
    lender_free(lender);
    puts(wrong == 0 ? "tiny: ok" : "tiny: WRONG");
    return wrong == 0 ? 0 : 1;
}
