/* What each code means, in a few words. */
#include "ulfm.h"

const char *ulfm_strerror(int code)
{
    switch (code) {
    case ULFM_SUCCESS: return "success";
    case ULFM_ERR_SELF_FAILED: return "this rank is declared failed";
    case ULFM_ERR_COMM: return "the rank does not hold the communicator";
    case ULFM_ERR_BUSY: return "a request of the rank is open on the communicator";
    case ULFM_ERR_SHRINK_OPEN: return "a shrink of the rank is open on another communicator";
    case ULFM_ERR_ROUNDS_USED_UP: return "no round of the communicator is left";
    case ULFM_ERR_IDLE: return "no request of the rank is open on the communicator";
    case ULFM_ERR_MISMATCH: return "some agreed and others shrank in one round";
    case ULFM_ERR_NO_CONTEXT: return "no context id is free at every contributor";
    case ULFM_ERR_NO_ROOM: return "all communicators of the world were made";
    case ULFM_ERR_REVOKED: return "the communicator is revoked";
    case ULFM_ERR_PROC_FAILED: return "a member of the communicator has failed";
    case ULFM_ERR_WORLD_KEPT: return "the communicator of all ranks is not given back";
    case ULFM_ERR_RANK: return "the world has no such rank";
    case ULFM_ERR_NO_MEM: return "memory was refused";
    case ULFM_ERR_TWICE: return "another has contributed as this rank";
    case ULFM_ERR_OUT_OF_RANGE: return "a limit is out of its range";
    case ULFM_ERR_TOO_LARGE: return "the world is too large";
    case ULFM_ERR_HANDLE: return "the handle holds nothing";
    case ULFM_ERR_NOT_A_RANK: return "the handle is not of this kind of rank";
    case ULFM_ERR_COUNT: return "there is not one handle for each rank";
    case ULFM_ERR_CALL: return "a call of the replica is under way";
    case ULFM_ERR_GAP: return "the entry is not the next one of the log";
    case ULFM_ERR_LOST: return "memory was refused before, and the replica is lost";
    case ULFM_ERR_PENDING: return "the request was not answered after so many polls";
    default: return "no code of this library";
    }
}
