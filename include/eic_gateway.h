/* The three checks of the energy code register, for a gateway written in C.
 *
 * Link with the static library that `tools/staticlib` builds. Each call reads len bytes at
 * bytes, writes nothing, keeps nothing and always returns. The bytes may be any; with len 0 the
 * pointer is not read, but must not be null.
 */
#ifndef EIC_GATEWAY_H
#define EIC_GATEWAY_H

#include <stddef.h>
#include <stdint.h>

#ifdef __cplusplus
extern "C" {
#endif

/* 0 for a sound code; 6 for a wrong length or an unlawful character; 8 for a wrong check
 * character. */
uint32_t eic_soundness(const uint8_t *bytes, size_t len);

/* The byte ('0' to '9' or 'A' to 'Z') that completes fifteen characters to a sound code; 6 for a
 * wrong length or an unlawful character; 8 if no character completes them. */
uint32_t eic_check_character(const uint8_t *bytes, size_t len);

/* 0 for a right EAN-13, else 9. */
uint32_t eic_ean(const uint8_t *bytes, size_t len);

#ifdef __cplusplus
}
#endif

#endif
