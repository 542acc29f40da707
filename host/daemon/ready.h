/* The host tells systemd that it serves, so that who started its unit waits until then. */
#ifndef HOST_READY_H
#define HOST_READY_H

/* Sends that the host serves, where a unit of Type=notify has started it. */
void ready_say(void);

#endif
