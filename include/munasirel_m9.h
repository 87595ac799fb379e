/* The functions of libmunasirel_m9.a: the manual's machine m9, a second engine that answers as the running judge of munasirel.h does
 * and keeps the manual's own flags and times. Linked before libmunasirel.a, where a program calls both.
 *
 * A list of records is answered by both alike, from their starts on: accepted, or refused by the same number and as far over, record by
 * record, and the variables read as the state. docs/MANUAL.md has the events, what was settled in them, and which flags are up when.
 *
 * Everything goes by value: nothing is lent, kept or allocated.
 */
#ifndef MUNASIREL_M9_H
#define MUNASIREL_M9_H

#include <stdbool.h>

#include "munasirel.h"

#ifdef __cplusplus
extern "C" {
#endif

/* The variables of m9 under the manual's names, in its order. A call may change the padding bytes. */
typedef struct munasirel_m9_variables {
    uint32_t time;
    uint32_t RequestFromNeuT;
    uint32_t RequestNoNeuT;
    uint32_t RequestToNeuT;
    bool isNeu;
    bool RequestFromNeu;
    bool RequestNoNeu;
    bool RequestToNeu;
    bool FromNeu_SyncSpeed;
    bool FromNeu_OpenClutch;
    bool FromNeu_SetGear_NoClutch;
    bool FromNeu_SetGear_Clutch;
    bool FromNeu_CloseClutch;
    bool Error_FromNeu_OpenClutch;
    bool Error_FromNeu_SetGear_NoClutch;
    bool Error_FromNeu_SetGear_Clutch;
    bool Error_FromNeu_CloseClutch;
    uint32_t FromNeu_OpenClutchT;
    uint32_t FromNeu_SyncSpeedT;
    uint32_t FromNeu_SetGear_ClutchT;
    bool ToNeu_ZeroTorque;
    bool ToNeu_OpenClutch;
    bool Error_ToNeu_OpenClutch;
    bool ToNeu_Release_NoClutch;
    bool Error_ToNeu_Release_NoClutch;
    bool ToNeu_Release_Clutch;
    bool Error_ToNeu_Release_Clutch;
    bool ToNeu_CloseClutch;
    bool Error_ToNeu_CloseClutch;
    uint32_t ToNeu_ZeroTorqueT;
    uint32_t ToNeu_OpenClutchT;
    uint32_t ToNeu_Release_ClutchT;
    bool NoNeu_ZeroTorque;
    bool NoNeu_Release_NoClutch;
    bool NoNeu_OpenClutch_Releasing;
    bool NoNeu_Release_Clutch;
    bool NoNeu_SyncSpeed;
    bool NoNeu_OpenClutch_Setting;
    bool NoNeu_SetGear_NoClutch;
    bool NoNeu_SetGear_ReleasingClutch;
    bool NoNeu_SetGear_SettingClutch;
    bool NoNeu_CloseClutch_Releasing;
    bool NoNeu_CloseClutch_Setting;
    bool Error_NoNeu_OpenClutch_Releasing;
    bool Error_NoNeu_Release_Clutch;
    bool Error_NoNeu_Release_NoClutch;
    bool Error_NoNeu_OpenClutch_Setting;
    bool Error_NoNeu_SetGear_NoClutch;
    bool Error_NoNeu_SetGear_ReleasingClutch;
    bool Error_NoNeu_SetGear_SettingClutch;
    bool Error_NoNeu_CloseClutch_Releasing;
    bool Error_NoNeu_CloseClutch_Setting;
    uint32_t NoNeu_ZeroTorqueT;
    uint32_t NoNeu_Release_NoClutchT;
    uint32_t NoNeu_OpenClutch_ReleasingT;
    uint32_t NoNeu_Release_ClutchT;
    uint32_t NoNeu_SetGear_ReleasingClutchT;
    uint32_t NoNeu_SetGear_SettingClutchT;
    uint32_t NoNeu_SyncSpeedT;
    uint32_t NoNeu_OpenClutch_SettingT;
    bool Engine_SyncSpeed;
    bool Engine_WaitForSyncClutch;
    bool Engine_ZeroTorque;
    bool Engine_WaitForZeroClutch;
    bool Clutch_Open;
    bool Error_Clutch_Open;
    bool Clutch_Close;
    bool Error_Clutch_Close;
    bool Gear_Release;
    bool Error_Gear_Release;
    bool Gear_Set;
    bool Error_Gear_Set;
    bool FromNeu_RequestOpenClutch;
    bool ToNeu_RequestOpenClutch;
    bool NoNeu_RequestOpenClutch_Releasing;
    bool NoNeu_RequestOpenClutch_Setting;
    uint32_t FromNeu_RequestOpenClutchT;
    uint32_t ToNeu_RequestOpenClutchT;
    uint32_t NoNeu_RequestOpenClutch_ReleasingT;
    uint32_t NoNeu_RequestOpenClutch_SettingT;
    bool Engine_Request_SyncSpeed;
    bool Engine_Request_ZeroTorque;
    bool Clutch_Request_Open;
    bool Clutch_Request_Close;
    bool Gear_Request_Release;
    bool Gear_Request_Set;
    uint32_t Engine_Request_SyncSpeedT;
    uint32_t Engine_Request_ZeroTorqueT;
    uint32_t Clutch_Request_OpenT;
    uint32_t Clutch_Request_CloseT;
    uint32_t Gear_Request_ReleaseT;
    uint32_t Gear_Request_SetT;
    uint32_t Engine_SyncSpeedT;
    uint32_t Engine_ZeroTorqueT;
    uint32_t Clutch_OpenT;
    uint32_t Clutch_CloseT;
    uint32_t Gear_ReleaseT;
    uint32_t Gear_SetT;
} munasirel_m9_variables;

/* The names of those that are flags and of those that are times, for a host that shows them: each is a macro of one name. */
#define MUNASIREL_M9_FLAGS(each) \
    each(isNeu) each(RequestFromNeu) each(RequestNoNeu) each(RequestToNeu) each(FromNeu_SyncSpeed) \
    each(FromNeu_OpenClutch) each(FromNeu_SetGear_NoClutch) each(FromNeu_SetGear_Clutch) each(FromNeu_CloseClutch) \
    each(Error_FromNeu_OpenClutch) each(Error_FromNeu_SetGear_NoClutch) each(Error_FromNeu_SetGear_Clutch) \
    each(Error_FromNeu_CloseClutch) each(ToNeu_ZeroTorque) each(ToNeu_OpenClutch) each(Error_ToNeu_OpenClutch) \
    each(ToNeu_Release_NoClutch) each(Error_ToNeu_Release_NoClutch) each(ToNeu_Release_Clutch) \
    each(Error_ToNeu_Release_Clutch) each(ToNeu_CloseClutch) each(Error_ToNeu_CloseClutch) each(NoNeu_ZeroTorque) \
    each(NoNeu_Release_NoClutch) each(NoNeu_OpenClutch_Releasing) each(NoNeu_Release_Clutch) each(NoNeu_SyncSpeed) \
    each(NoNeu_OpenClutch_Setting) each(NoNeu_SetGear_NoClutch) each(NoNeu_SetGear_ReleasingClutch) \
    each(NoNeu_SetGear_SettingClutch) each(NoNeu_CloseClutch_Releasing) each(NoNeu_CloseClutch_Setting) \
    each(Error_NoNeu_OpenClutch_Releasing) each(Error_NoNeu_Release_Clutch) each(Error_NoNeu_Release_NoClutch) \
    each(Error_NoNeu_OpenClutch_Setting) each(Error_NoNeu_SetGear_NoClutch) each(Error_NoNeu_SetGear_ReleasingClutch) \
    each(Error_NoNeu_SetGear_SettingClutch) each(Error_NoNeu_CloseClutch_Releasing) each(Error_NoNeu_CloseClutch_Setting) \
    each(Engine_SyncSpeed) each(Engine_WaitForSyncClutch) each(Engine_ZeroTorque) each(Engine_WaitForZeroClutch) \
    each(Clutch_Open) each(Error_Clutch_Open) each(Clutch_Close) each(Error_Clutch_Close) each(Gear_Release) \
    each(Error_Gear_Release) each(Gear_Set) each(Error_Gear_Set) each(FromNeu_RequestOpenClutch) \
    each(ToNeu_RequestOpenClutch) each(NoNeu_RequestOpenClutch_Releasing) each(NoNeu_RequestOpenClutch_Setting) \
    each(Engine_Request_SyncSpeed) each(Engine_Request_ZeroTorque) each(Clutch_Request_Open) each(Clutch_Request_Close) \
    each(Gear_Request_Release) each(Gear_Request_Set)
#define MUNASIREL_M9_TIMES(each) \
    each(time) each(RequestFromNeuT) each(RequestNoNeuT) each(RequestToNeuT) each(FromNeu_OpenClutchT) \
    each(FromNeu_SyncSpeedT) each(FromNeu_SetGear_ClutchT) each(ToNeu_ZeroTorqueT) each(ToNeu_OpenClutchT) \
    each(ToNeu_Release_ClutchT) each(NoNeu_ZeroTorqueT) each(NoNeu_Release_NoClutchT) each(NoNeu_OpenClutch_ReleasingT) \
    each(NoNeu_Release_ClutchT) each(NoNeu_SetGear_ReleasingClutchT) each(NoNeu_SetGear_SettingClutchT) \
    each(NoNeu_SyncSpeedT) each(NoNeu_OpenClutch_SettingT) each(FromNeu_RequestOpenClutchT) each(ToNeu_RequestOpenClutchT) \
    each(NoNeu_RequestOpenClutch_ReleasingT) each(NoNeu_RequestOpenClutch_SettingT) each(Engine_Request_SyncSpeedT) \
    each(Engine_Request_ZeroTorqueT) each(Clutch_Request_OpenT) each(Clutch_Request_CloseT) each(Gear_Request_ReleaseT) \
    each(Gear_Request_SetT) each(Engine_SyncSpeedT) each(Engine_ZeroTorqueT) each(Clutch_OpenT) each(Clutch_CloseT) \
    each(Gear_ReleaseT) each(Gear_SetT)

/* The answer of one step: its number, the broken rule with 4 and else 0, how far over it is with 9 to 13 and else 0, and the variables
 * after it or, refused, those given. The excess counts milliseconds, as that of munasirel_advance does. */
typedef struct munasirel_m9_moved {
    uint8_t number;
    uint8_t rule;
    uint64_t excess;
    munasirel_m9_variables variables;
} munasirel_m9_moved;

/* What the variables say of the running judge's state: always clock, gear_box, phase and stage, and the times in phases 1 to 21 with
 * stage sent, working or good. A time that they do not tell is 0, and so is each time outside a shift. */
typedef struct munasirel_m9_read {
    uint32_t clock;
    uint8_t gear_box;
    uint8_t phase;
    uint32_t phase_time;
    uint8_t stage;
    uint32_t stage_time;
    uint32_t request_time;
} munasirel_m9_read;

/* The variables at the start: isNeu is true, every flag false and every time 0. */
munasirel_m9_variables munasirel_m9_start(void);

/* Advances the variables by one record.
 *   variables                 any variables; each bool holds true or false, as a bool does that was never written by other means
 *   table                     the limits to judge under
 *   code, middle, low, high   the record's four bytes in their order
 * Returns the answer, with the numbers and the excess of munasirel_advance. */
munasirel_m9_moved munasirel_m9_advance(munasirel_m9_variables variables, munasirel_limits table, uint8_t code, uint8_t middle,
                                        uint8_t low, uint8_t high);

/* Reads the variables in the running judge's terms. */
munasirel_m9_read munasirel_m9_reading(munasirel_m9_variables variables);

#ifdef __cplusplus
}
#endif

/* The layout that the library was compiled for. */
#ifdef __cplusplus
#define MUNASIREL_HOLDS(fact) static_assert(fact, #fact)
#else
#define MUNASIREL_HOLDS(fact) _Static_assert(fact, #fact)
#endif
MUNASIREL_HOLDS(sizeof(bool) == 1);
MUNASIREL_HOLDS(sizeof(munasirel_m9_variables) == 208);
MUNASIREL_HOLDS(offsetof(munasirel_m9_variables, isNeu) == 16);
MUNASIREL_HOLDS(offsetof(munasirel_m9_variables, FromNeu_OpenClutchT) == 32);
MUNASIREL_HOLDS(offsetof(munasirel_m9_variables, Engine_SyncSpeed) == 120);
MUNASIREL_HOLDS(offsetof(munasirel_m9_variables, Gear_SetT) == 204);
MUNASIREL_HOLDS(sizeof(munasirel_m9_moved) == 224);
MUNASIREL_HOLDS(offsetof(munasirel_m9_moved, rule) == 1);
MUNASIREL_HOLDS(offsetof(munasirel_m9_moved, excess) == 8);
MUNASIREL_HOLDS(offsetof(munasirel_m9_moved, variables) == 16);
MUNASIREL_HOLDS(sizeof(munasirel_m9_read) == 24);
MUNASIREL_HOLDS(offsetof(munasirel_m9_read, request_time) == 20);
#undef MUNASIREL_HOLDS

#endif
