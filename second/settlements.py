"""Settlements of the manual's machine m9: what stands otherwise than it prints it, an event of our own, and why."""

from typing import NamedTuple, Optional

# The label of what m9 doesn't print, by the document that adds it: guards of document 01, guards and actions of 02.
ADDED, REQUESTED = "01", "02"


class Settlement(NamedTuple):
    """A guard or an action of an event, by its label, and what stands in its place: None for nothing."""

    event: str
    label: str
    stands: Optional[str]
    why: str


OWN_DELAY = "step 9 waits for the DE of the phase's own order, and the order of phase 1 is sync"
WAITING = "step 9 needs an engine that waits"
BY_ASKING = "phase 7 is entered by asking for the clutch; as printed, grd1 and grd2 contradict each other"
NOT_GOOD = "step 10 needs a device that failed; as printed, the gear has to be set for the error that it is not"
FAILED = "step 10 needs a device that failed; as printed, nothing is asked of the device"
OWN_TIME = "each order runs from its own phase: phase 15 does not begin with from neutral's gear"
DELIVERED = "the channel's limit of an order that is sent ends when it is delivered, not when the gear is set"
OWN_PHASE = "each order runs from its own phase: this set order is sent in phase 4 of from neutral; to neutral has none"

SETTLEMENTS = (
    Settlement("FromNeu_RequestOpenClutch", "grd4", "time ≥ RequestFromNeuT + OpenClutch_Sync_DE", OWN_DELAY),
    Settlement("FromNeu_RequestOpenClutch", ADDED, "Engine_WaitForSyncClutch = TRUE", WAITING),
    Settlement("Error_FromNeu_OpenClutch", ADDED, "Error_Clutch_Open = TRUE", FAILED),
    Settlement("Error_FromNeu_SetGear_NoClutch", "grd4", "Error_Gear_Set = TRUE", NOT_GOOD),
    Settlement("Error_FromNeu_SetGear_Clutch", ADDED, "Error_Gear_Set = TRUE", FAILED),
    Settlement("Error_FromNeu_CloseClutch", ADDED, "Error_Clutch_Close = TRUE", FAILED),
    Settlement("ToNeu_RequestOpenClutch", ADDED, "Engine_WaitForZeroClutch = TRUE", WAITING),
    Settlement("Error_ToNeu_OpenClutch", ADDED, "Error_Clutch_Open = TRUE", FAILED),
    Settlement("Error_ToNeu_Release_NoClutch", ADDED, "Error_Gear_Release = TRUE", FAILED),
    Settlement("Error_ToNeu_Release_Clutch", ADDED, "Error_Gear_Release = TRUE", FAILED),
    Settlement("Error_ToNeu_CloseClutch", ADDED, "Error_Clutch_Close = TRUE", FAILED),
    Settlement("NoNeu_RequestOpenClutch_Releasing", ADDED, "Engine_WaitForZeroClutch = TRUE", WAITING),
    Settlement("NoNeu_OpenClutch_Releasing", "grd1", "NoNeu_RequestOpenClutch_Releasing = TRUE", BY_ASKING),
    Settlement("Error_NoNeu_OpenClutch_Releasing", ADDED, "Error_Clutch_Open = TRUE", FAILED),
    Settlement("Error_NoNeu_Release_NoClutch", ADDED, "Error_Gear_Release = TRUE", FAILED),
    Settlement("Error_NoNeu_Release_Clutch", ADDED, "Error_Gear_Release = TRUE", FAILED),
    Settlement("NoNeu_RequestOpenClutch_Setting", ADDED, "Engine_WaitForSyncClutch = TRUE", WAITING),
    Settlement("Error_NoNeu_OpenClutch_Setting", ADDED, "Error_Clutch_Open = TRUE", FAILED),
    Settlement("Error_NoNeu_SetGear_NoClutch", ADDED, "Error_Gear_Set = TRUE", FAILED),
    Settlement("Error_NoNeu_SetGear_ReleasingClutch", ADDED, "Error_Gear_Set = TRUE", FAILED),
    Settlement("Error_NoNeu_SetGear_SettingClutch", ADDED, "Error_Gear_Set = TRUE", FAILED),
    Settlement("Error_NoNeu_CloseClutch_Setting", ADDED, "Error_Clutch_Close = TRUE", FAILED),
    Settlement("Error_NoNeu_CloseClutch_Releasing", ADDED, "Error_Clutch_Close = TRUE", FAILED),
    Settlement(
        "Tick_Tock", "grd35",
        "NoNeu_SetGear_SettingClutch = TRUE ∧ Clutch_Request_Close = FALSE "
        "⇒ time + tick ≤ NoNeu_SetGear_SettingClutchT + Channel_DL", OWN_TIME,
    ),
    Settlement(
        "Tick_Tock", "grd46",
        "FromNeu_SyncSpeed = TRUE ∧ Gear_Request_Set = FALSE "
        "⇒ time + tick ≤ FromNeu_SyncSpeedT + Channel_DL", DELIVERED,
    ),
    Settlement(
        "Tick_Tock", "grd47",
        "FromNeu_OpenClutch = TRUE ∧ Gear_Request_Set = FALSE "
        "⇒ time + tick ≤ FromNeu_OpenClutchT + Channel_DL", OWN_PHASE,
    ),
)

# A later machine of the manual prints these as grd4, but has both of the closing clutch from Clutch_Request_OpenT.
OPENS, NOT_OPENED, CLOSES, NOT_CLOSED = (
    f"request 6: a clutch {answers} no earlier than its {delay} after the order was delivered; m9 has no delay"
    for answers, delay in (("is open", "delay"), ("fails to open", "error delay"),
                           ("is closed", "delay"), ("fails to close", "error delay")))

DELAY_GUARDS = (
    Settlement("Clutch_Open", REQUESTED, "time ≥ Clutch_Request_OpenT + Clutch_Open_DE", OPENS),
    Settlement("Error_Clutch_Open", REQUESTED, "time ≥ Clutch_Request_OpenT + Error_Clutch_Open_DE", NOT_OPENED),
    Settlement("Clutch_Close", REQUESTED, "time ≥ Clutch_Request_CloseT + Clutch_Close_DE", CLOSES),
    Settlement("Error_Clutch_Close", REQUESTED, "time ≥ Clutch_Request_CloseT + Error_Clutch_Close_DE", NOT_CLOSED),
)

GEAR_SET = "request 2: taking a set order makes the box in gear"
GEAR_RELEASED = "request 2: taking a release order makes the box neutral"
NOT_BY_DONE = "request 2: entering 22 no longer touches the box"

SETTLED_ACTIONS = (
    Settlement("FromNeu_SetGear_Clutch", REQUESTED, "isNeu := FALSE", GEAR_SET),
    Settlement("FromNeu_CloseClutch", "act2", None, NOT_BY_DONE),
    Settlement("ToNeu_Release_Clutch", REQUESTED, "isNeu := TRUE", GEAR_RELEASED),
    Settlement("ToNeu_CloseClutch", "act2", None, NOT_BY_DONE),
    Settlement("NoNeu_Release_NoClutch", REQUESTED, "isNeu := TRUE", GEAR_RELEASED),
    Settlement("NoNeu_Release_Clutch", REQUESTED, "isNeu := TRUE", GEAR_RELEASED),
    Settlement("NoNeu_SetGear_NoClutch", REQUESTED, "isNeu := FALSE", GEAR_SET),
    Settlement("NoNeu_SetGear_ReleasingClutch", REQUESTED, "isNeu := FALSE", GEAR_SET),
    Settlement("NoNeu_SetGear_SettingClutch", REQUESTED, "isNeu := FALSE", GEAR_SET),
)

SETTLED = SETTLEMENTS + DELAY_GUARDS + SETTLED_ACTIONS

# The event that is not the manual's, written as m9_printed.py writes the manual's, and why it is there.
OWN_EVENT = """
RESET
grd1 : Error_FromNeu_OpenClutch = TRUE ∨ Error_FromNeu_SetGear_NoClutch = TRUE ∨ Error_FromNeu_SetGear_Clutch = TRUE ∨
    Error_FromNeu_CloseClutch = TRUE ∨ Error_ToNeu_OpenClutch = TRUE ∨ Error_ToNeu_Release_NoClutch = TRUE ∨
    Error_ToNeu_Release_Clutch = TRUE ∨ Error_ToNeu_CloseClutch = TRUE ∨ Error_NoNeu_OpenClutch_Releasing = TRUE ∨
    Error_NoNeu_Release_Clutch = TRUE ∨ Error_NoNeu_Release_NoClutch = TRUE ∨ Error_NoNeu_OpenClutch_Setting = TRUE ∨
    Error_NoNeu_SetGear_NoClutch = TRUE ∨ Error_NoNeu_SetGear_ReleasingClutch = TRUE ∨
    Error_NoNeu_SetGear_SettingClutch = TRUE ∨ Error_NoNeu_CloseClutch_Releasing = TRUE ∨
    Error_NoNeu_CloseClutch_Setting = TRUE
act1 : RequestFromNeu := FALSE
act2 : RequestNoNeu := FALSE
act3 : RequestToNeu := FALSE
act4 : FromNeu_SyncSpeed := FALSE
act5 : FromNeu_OpenClutch := FALSE
act6 : FromNeu_SetGear_NoClutch := FALSE
act7 : FromNeu_SetGear_Clutch := FALSE
act8 : FromNeu_CloseClutch := FALSE
act9 : Error_FromNeu_OpenClutch := FALSE
act10 : Error_FromNeu_SetGear_NoClutch := FALSE
act11 : Error_FromNeu_SetGear_Clutch := FALSE
act12 : Error_FromNeu_CloseClutch := FALSE
act13 : ToNeu_ZeroTorque := FALSE
act14 : ToNeu_OpenClutch := FALSE
act15 : Error_ToNeu_OpenClutch := FALSE
act16 : ToNeu_Release_NoClutch := FALSE
act17 : Error_ToNeu_Release_NoClutch := FALSE
act18 : ToNeu_Release_Clutch := FALSE
act19 : Error_ToNeu_Release_Clutch := FALSE
act20 : ToNeu_CloseClutch := FALSE
act21 : Error_ToNeu_CloseClutch := FALSE
act22 : NoNeu_ZeroTorque := FALSE
act23 : NoNeu_Release_NoClutch := FALSE
act24 : NoNeu_OpenClutch_Releasing := FALSE
act25 : NoNeu_Release_Clutch := FALSE
act26 : NoNeu_SyncSpeed := FALSE
act27 : NoNeu_OpenClutch_Setting := FALSE
act28 : NoNeu_SetGear_NoClutch := FALSE
act29 : NoNeu_SetGear_ReleasingClutch := FALSE
act30 : NoNeu_SetGear_SettingClutch := FALSE
act31 : NoNeu_CloseClutch_Releasing := FALSE
act32 : NoNeu_CloseClutch_Setting := FALSE
act33 : Error_NoNeu_OpenClutch_Releasing := FALSE
act34 : Error_NoNeu_Release_Clutch := FALSE
act35 : Error_NoNeu_Release_NoClutch := FALSE
act36 : Error_NoNeu_OpenClutch_Setting := FALSE
act37 : Error_NoNeu_SetGear_NoClutch := FALSE
act38 : Error_NoNeu_SetGear_ReleasingClutch := FALSE
act39 : Error_NoNeu_SetGear_SettingClutch := FALSE
act40 : Error_NoNeu_CloseClutch_Releasing := FALSE
act41 : Error_NoNeu_CloseClutch_Setting := FALSE
act42 : Engine_SyncSpeed := FALSE
act43 : Engine_WaitForSyncClutch := FALSE
act44 : Engine_ZeroTorque := FALSE
act45 : Engine_WaitForZeroClutch := FALSE
act46 : Clutch_Open := FALSE
act47 : Error_Clutch_Open := FALSE
act48 : Clutch_Close := FALSE
act49 : Error_Clutch_Close := FALSE
act50 : Gear_Release := FALSE
act51 : Error_Gear_Release := FALSE
act52 : Gear_Set := FALSE
act53 : Error_Gear_Set := FALSE
act54 : FromNeu_RequestOpenClutch := FALSE
act55 : ToNeu_RequestOpenClutch := FALSE
act56 : NoNeu_RequestOpenClutch_Releasing := FALSE
act57 : NoNeu_RequestOpenClutch_Setting := FALSE
act58 : Engine_Request_SyncSpeed := FALSE
act59 : Engine_Request_ZeroTorque := FALSE
act60 : Clutch_Request_Open := FALSE
act61 : Clutch_Request_Close := FALSE
act62 : Gear_Request_Release := FALSE
act63 : Gear_Request_Set := FALSE
"""
RESETTING = "request 2: step 13, reset, is allowed in phase 23 only, enters 0 and keeps the box"
