/* What the installed header, codzvregi.h, has besides spin.h. */
#ifndef CODZVREGI_H
#define CODZVREGI_H

/* The version of the calls that this header declares. It grows where one of them is changed, and so does the name
 * libcodzvregi.so.N; a library that answers another from codzvregi_version isn't that of this header. */
#define CODZVREGI_VERSION SPIN_VERSION

#ifdef __cplusplus
extern "C" {
#endif

/* What is proved of the library that is linked, in a line: by which kit, or that it is the plain one, of which nothing
 * is. Nothing is proved of this call itself. */
const char *codzvregi_proved(void);

/* The version of the calls of the library that is linked. */
static inline uint32_t codzvregi_version(void) {
    return spin_version();
}

#ifdef __cplusplus
}
#endif

#endif
