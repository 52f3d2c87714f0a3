/* Tells the sanitizer of threads what the locks of GLib order: it knows those of pthread alone, which GLib's are not made of. It is built
 * with that sanitizer only. Each function stands before GLib's of that name, for the elements and for GStreamer. */
#define _GNU_SOURCE
#include <dlfcn.h>
#include <glib.h>

/* Of the sanitizer's runtime: what was done before the one is seen behind the other. */
extern void __tsan_release(void *lock);
extern void __tsan_acquire(void *lock);

/* A function of GLib, found once. */
typedef union real {
    gpointer found;
    void (*lock)(GMutex *);
    gboolean (*try_lock)(GMutex *);
    void (*wait)(GCond *, GMutex *);
    gboolean (*wait_until)(GCond *, GMutex *, gint64);
} real;

static real glib_s(gpointer *kept, const gchar *name) {
    real function = {g_atomic_pointer_get(kept)};
    if (!function.found) function.found = dlsym(RTLD_NEXT, name);
    g_atomic_pointer_set(kept, function.found);
    return function;
}

void (g_mutex_lock)(GMutex *mutex) {
    static gpointer kept;
    glib_s(&kept, "g_mutex_lock").lock(mutex);
    __tsan_acquire(mutex);
}

gboolean (g_mutex_trylock)(GMutex *mutex) {
    static gpointer kept;
    gboolean is_locked = glib_s(&kept, "g_mutex_trylock").try_lock(mutex);
    if (is_locked) __tsan_acquire(mutex);
    return is_locked;
}

void (g_mutex_unlock)(GMutex *mutex) {
    static gpointer kept;
    __tsan_release(mutex);
    glib_s(&kept, "g_mutex_unlock").lock(mutex);
}

void (g_cond_wait)(GCond *cond, GMutex *mutex) {
    static gpointer kept;
    __tsan_release(mutex);
    glib_s(&kept, "g_cond_wait").wait(cond, mutex);
    __tsan_acquire(mutex);
}

gboolean (g_cond_wait_until)(GCond *cond, GMutex *mutex, gint64 until) {
    static gpointer kept;
    __tsan_release(mutex);
    gboolean is_signalled = glib_s(&kept, "g_cond_wait_until").wait_until(cond, mutex, until);
    __tsan_acquire(mutex);
    return is_signalled;
}
