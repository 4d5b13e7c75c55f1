/* The life cycle of a container as a state chart.
 *
 *   created
 *   alive (parallel)
 *     volumes: mounting, mounted, unmounting, released (final)
 *     process: waiting, wanted, active, paused, stopping, dead (final)
 *       active: last (deep history), booting, up (serving, reloading)
 *       stopping: terminating, killing
 *   removed (final)
 *
 * No event leads from mounted to unmounting: only that the process is dead does. So a volume is never unmounted beneath a running process,
 * whoever asks for it.
 */
#ifndef LIFECYCLE_CHART_H
#define LIFECYCLE_CHART_H

#include "auttervil.h"

enum host_action {
    MOUNT_VOLUMES = 1,
    UNMOUNT_VOLUMES,
    EXEC_PROCESS,
    FREEZE_PROCESS,
    THAW_PROCESS,
    SEND_TERM,
    SEND_KILL,
    SEND_HUP,
    LOG_CRASH,
    REMOVE_CONTAINER
};

/* How many ticks, which are milliseconds, a process has from SIGTERM to SIGKILL. */
#define PATIENCE 10000

/* Rows, transitions, references, descriptors, actions, names. */
AUTTERVIL_PLACES(lifecycle, 24, 28, 40, 40, 24, 64);

static void add_rows(auttervil_builder *b, const char *mounted)
{
    auttervil_add_row(b, AUTTERVIL_KIND_STATE, NULL, "created");
    auttervil_add_row(b, AUTTERVIL_KIND_PARALLEL, NULL, "alive");
    auttervil_add_row(b, AUTTERVIL_KIND_STATE, "alive", "volumes");
    auttervil_add_row(b, AUTTERVIL_KIND_STATE, "volumes", "mounting");
    auttervil_add_row(b, AUTTERVIL_KIND_STATE, "volumes", mounted);
    auttervil_add_row(b, AUTTERVIL_KIND_STATE, "volumes", "unmounting");
    auttervil_add_row(b, AUTTERVIL_KIND_FINAL, "volumes", "released");
    auttervil_add_row(b, AUTTERVIL_KIND_STATE, "alive", "process");
    auttervil_add_row(b, AUTTERVIL_KIND_STATE, "process", "waiting");
    auttervil_add_row(b, AUTTERVIL_KIND_STATE, "process", "wanted");
    auttervil_add_row(b, AUTTERVIL_KIND_STATE, "process", "active");
    auttervil_add_row(b, AUTTERVIL_KIND_DEEP, "active", "last");
    auttervil_add_row(b, AUTTERVIL_KIND_STATE, "active", "booting");
    auttervil_add_row(b, AUTTERVIL_KIND_STATE, "active", "up");
    auttervil_add_row(b, AUTTERVIL_KIND_STATE, "up", "serving");
    auttervil_add_row(b, AUTTERVIL_KIND_STATE, "up", "reloading");
    auttervil_add_row(b, AUTTERVIL_KIND_STATE, "process", "paused");
    auttervil_add_row(b, AUTTERVIL_KIND_STATE, "process", "stopping");
    auttervil_add_row(b, AUTTERVIL_KIND_STATE, "stopping", "terminating");
    auttervil_add_row(b, AUTTERVIL_KIND_STATE, "stopping", "killing");
    auttervil_add_row(b, AUTTERVIL_KIND_FINAL, "process", "dead");
    auttervil_add_row(b, AUTTERVIL_KIND_FINAL, NULL, "removed");
}

static void add_volumes(auttervil_builder *b, const char *mounted)
{
    auttervil_add_entry(b, "mounting");
    auttervil_add_host(b, MOUNT_VOLUMES);
    auttervil_add_entry(b, mounted);
    auttervil_add_raise(b, "volumes.ready");
    auttervil_add_entry(b, "unmounting");
    auttervil_add_host(b, UNMOUNT_VOLUMES);
    auttervil_add_transition(b, "mounting", "mount.done", mounted);
    auttervil_add_transition(b, "mounting", "mount.failed", "released");
    /* Eventless: done.state.process could come while the volumes are still being mounted, and would be lost. */
    auttervil_add_transition(b, mounted, NULL, "unmounting");
    auttervil_set_condition(b, "dead");
    auttervil_add_transition(b, "unmounting", "unmount.done", "released");
    /* Leaves unmounting and enters it again, which asks for the same once more. */
    auttervil_add_transition(b, "unmounting", "unmount.failed", "unmounting");
}

static void add_process(auttervil_builder *b, const char *mounted)
{
    /* The process is started in blocks of transitions: an entry block of booting would start it again on a resume. */
    auttervil_add_transition(b, "waiting", "start", "booting");
    auttervil_set_condition(b, mounted);
    auttervil_add_host(b, EXEC_PROCESS);
    auttervil_add_transition(b, "waiting", "start", "wanted");
    auttervil_add_transition(b, "wanted", "volumes.ready", "booting");
    auttervil_add_host(b, EXEC_PROCESS);
    /* Nothing runs yet, so there is nothing to ask or to kill; as dead, it lets the volumes be unmounted. */
    auttervil_add_transition(b, "waiting", "cancel stop kill done.state.volumes", "dead");
    auttervil_add_transition(b, "wanted", "cancel stop kill done.state.volumes", "dead");

    auttervil_add_list(b, "last", "booting");
    auttervil_add_transition(b, "booting", "ready", "up");
    auttervil_add_transition(b, "serving", "reload", "reloading");
    auttervil_add_host(b, SEND_HUP);
    auttervil_add_transition(b, "reloading", "ready", "serving");

    auttervil_add_transition(b, "active", "pause", "paused");
    auttervil_add_entry(b, "paused");
    auttervil_add_host(b, FREEZE_PROCESS);
    auttervil_add_exit(b, "paused");
    auttervil_add_host(b, THAW_PROCESS);
    auttervil_add_transition(b, "paused", "resume", "last");
}

static void add_stop(auttervil_builder *b)
{
    auttervil_add_entry(b, "terminating");
    auttervil_add_host(b, SEND_TERM);
    auttervil_add_send(b, "timeout", PATIENCE, "patience");
    auttervil_add_exit(b, "terminating");
    auttervil_add_cancel(b, "patience");
    auttervil_add_entry(b, "killing");
    auttervil_add_host(b, SEND_KILL);
    auttervil_add_transition(b, "active", "stop", "stopping");
    auttervil_add_transition(b, "active", "kill", "killing");
    auttervil_add_transition(b, "active", "exited", "dead");
    auttervil_add_host(b, LOG_CRASH);
    auttervil_add_transition(b, "paused", "stop", "stopping");
    auttervil_add_transition(b, "paused", "kill", "killing");
    auttervil_add_transition(b, "paused", "exited", "dead");
    auttervil_add_host(b, LOG_CRASH);
    auttervil_add_transition(b, "terminating", "timeout kill", "killing");
    auttervil_add_transition(b, "stopping", "exited", "dead");

    auttervil_add_transition(b, "created", "mount", "alive");
    auttervil_add_transition(b, "alive", "done.state.alive", "removed");
    auttervil_add_entry(b, "removed");
    auttervil_add_host(b, REMOVE_CONTAINER);
}

/* Builds and compiles the whole chart; the state of mounted volumes has the id that is given. A fault of the builder leaves empty tables, which
 * compiling refuses. */
static auttervil_compiled compile_chart(auttervil_builder *b, const char *mounted, auttervil_tables *tables)
{
    AUTTERVIL_BEGIN(b, lifecycle);
    add_rows(b, mounted);
    add_volumes(b, mounted);
    add_process(b, mounted);
    add_stop(b);
    (void)auttervil_finish(b, tables);
    return AUTTERVIL_COMPILE(tables, lifecycle);
}

#endif
