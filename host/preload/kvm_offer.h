/*
 * Guest memory that the monitor doesn't offer by advice. With PAGESHARE_OFFER=kvm the memory that it gives to a guest by
 * KVM_SET_USER_MEMORY_REGION is offered as by MADV_MERGEABLE. It leaves when the guest has it no longer.
 */
#ifndef HOST_KVM_OFFER_H
#define HOST_KVM_OFFER_H

#include <stdbool.h>
#include <stddef.h>
#include <stdint.h>

/* The requests by which memory is offered, as many as are returned: none, unless it is wanted. */
size_t kvm_offer_requests(uint32_t to[], size_t most);
bool kvm_offer_is_about(unsigned long request);
/* The monitor has made a request of a descriptor, which succeeded. `with` is what it made it with. errno stays as it is. */
void kvm_offer_seen(int descriptor, unsigned long request, const void *with);

#endif
