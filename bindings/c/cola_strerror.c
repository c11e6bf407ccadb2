/* The answers of cola.h in words. */
#include "cola.h"

const char *cola_strerror(int32_t answer) {
    switch (answer) {
    case COLA_OK: return "done";
    case COLA_NONE: return "the key is absent, or no row is left";
    case COLA_OTHER: return "the key has another stamp";
    case COLA_FULL: return "the store has as many keys as it is for";
    case COLA_WORN: return "no stamp is left to give";
    case COLA_CLOSED: return "the handle is not open";
    case COLA_IN_USE: return "the handle is open already";
    case COLA_LENGTH: return "a key or a value has a length that the store does not take";
    case COLA_NULL: return "a pointer is NULL where there has to be one";
    case COLA_OPTIONS: return "no store has these keys, this block or this version, or there is no such flag";
    case COLA_NOT_EMPTY: return "the file, or the memory, is not empty";
    case COLA_NOT_STORE: return "there is no store";
    case COLA_SMALL: return "there are fewer bytes than the store has";
    case COLA_NOT_CLOSED: return "the store was not closed: it is open elsewhere, or a process died";
    case COLA_BAD_CELL: return "a cell of the store is damaged";
    case COLA_OVERFULL: return "the levels of the store are damaged";
    case COLA_MEMORY: return "there was no memory";
    case COLA_SYSTEM: return "a call of the system failed";
    case COLA_READ_ONLY_STORE: return "the store is open to be read alone";
    case COLA_ORDER: return "the key of a row is not above that of the row before";
    case COLA_FEWER: return "the new store is for fewer keys than there are";
    case COLA_BROKEN: return "the store stands for no map";
    case COLA_UNFINISHED: return "the journal or the log beside the file is not settled";
    default: return "no answer of this library";
    }
}
