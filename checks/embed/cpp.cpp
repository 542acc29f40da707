// The header compiles as C++, and the library links. Prints "ok".
#include "pageshare.h"
#include <cstdio>

int main() {
    pageshare machine = PAGESHARE_NONE;
    const uint32_t pages[] = {1}, salts[] = {0};
    pageshare_config described{};
    described.frames = 1;
    described.pages = pages;
    described.salts = salts;
    described.guests = 1;
    if (pageshare_make(&machine, &described) != PAGESHARE_OK || pageshare_free(&machine) != PAGESHARE_OK) return 1;
    if (pageshare_make(&machine, 1, pages, 1, salts, 1) != PAGESHARE_OK) return 1;
    const pageshare_answer answer = pageshare_release(&machine, 0, 0);
    if (pageshare_free(&machine) != PAGESHARE_OK || answer.verdict != PAGESHARE_VERDICT_UNMAPPED) return 1;
    pageshare_domain domain = PAGESHARE_DOMAIN_NONE;
    pageshare_domain_config config = {};
    if (pageshare_domain_make(&domain, &config) != PAGESHARE_ERROR_SIZE) return 1;
    config.size = sizeof config;
    if (pageshare_domain_make(&domain, &config) != PAGESHARE_ERROR_MACHINES) return 1;
    std::puts("ok");
    return 0;
}
