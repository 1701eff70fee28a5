/* The peers that are loaded at run time from where Debian's packages put them; bench/peers installs the packages. Wants _GNU_SOURCE. */
#ifndef PEERS_H
#define PEERS_H

#include <dlfcn.h>
#include <stddef.h>
#include <string.h>

#define LIBRARIES "/usr/lib/x86_64-linux-gnu/"

/* Fortran's interface: every argument by its address, the lengths of strings last. */
typedef void packed_factor(const char *uplo, const int *n, double *ap, int *info, size_t);
typedef void packed_solve(const char *uplo, const int *n, const int *nrhs, const double *ap, double *b, const int *ldb, int *info, size_t);
typedef void full_factor(const char *uplo, const int *n, double *a, const int *lda, int *info, size_t);
typedef void rfp_convert(const char *transr, const char *uplo, const int *n, const double *source, double *target, int *info, size_t, size_t);
typedef void rfp_factor(const char *transr, const char *uplo, const int *n, double *a, int *info, size_t, size_t);
typedef void rfp_solve(const char *transr, const char *uplo, const int *n, const int *nrhs, const double *a, double *b, const int *ldb, int *info, size_t, size_t);

/* NULL where it cannot be loaded; dlerror says why. */
static inline void *open_library(const char *path) { return dlopen(path, RTLD_NOW | RTLD_LOCAL | RTLD_DEEPBIND); }

/* The function that this name has for the library's own calls. NULL where there is none in a file whose path begins as given. */
static inline void *find_function(void *library, const char *name, const char *path) {
    Dl_info info;
    void *found = dlsym(library, name);
    return found && dladdr(found, &info) && strncmp(info.dli_fname, path, strlen(path)) == 0 ? found : NULL;
}

/* The reference LAPACK, NULL where it cannot be loaded. It needs libblas.so.3, which the system may have pointed at OpenBLAS; the reference BLAS, loaded first,
 * has that name already. */
static inline void *open_lapack(void) { return open_library(LIBRARIES "blas/libblas.so.3") ? open_library(LIBRARIES "lapack/liblapack.so.3") : NULL; }

#endif
