/* What the faces of libpwcheck and of libpwcrypt share: memory for the proved calls, and the wiping after a call. */
#ifndef FACE_H
#define FACE_H

#include <stdbool.h>
#include <stddef.h>
#include <stdint.h>

/* The bytes of stack that are wiped after a call: at least as many as a proved call takes below its caller, which
 * checks/stack.py measures. This many are libpwcheck's, where a check of SHA-512-crypt takes most; libpwcrypt sets fewer. */
#ifndef FACE_STACK
#define FACE_STACK 7968
#endif

/* Wipes the stack below the caller and the vector registers. A face calls it after the proved call has returned. */
void face_wipe(void);

/* Random bytes of the system; false where it gives none, and then errno says why. Fewer bytes are never taken for enough. */
bool face_draw(uint8_t *bytes, size_t count);

#endif
