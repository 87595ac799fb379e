"""The manual's machine m9 as it is printed: its variables, what INITIALISATION sets them to, and its 65 events.

Labels, names, formulas and their order are the manual's. Slips stay: what stands in their place is in settlements.py.
"""

VARIABLES = """
time RequestFromNeuT RequestNoNeuT RequestToNeuT isNeu RequestFromNeu RequestNoNeu RequestToNeu FromNeu_SyncSpeed
FromNeu_OpenClutch FromNeu_SetGear_NoClutch FromNeu_SetGear_Clutch FromNeu_CloseClutch Error_FromNeu_OpenClutch
Error_FromNeu_SetGear_NoClutch Error_FromNeu_SetGear_Clutch Error_FromNeu_CloseClutch FromNeu_OpenClutchT
FromNeu_SyncSpeedT FromNeu_SetGear_ClutchT ToNeu_ZeroTorque ToNeu_OpenClutch Error_ToNeu_OpenClutch
ToNeu_Release_NoClutch Error_ToNeu_Release_NoClutch ToNeu_Release_Clutch Error_ToNeu_Release_Clutch ToNeu_CloseClutch
Error_ToNeu_CloseClutch ToNeu_ZeroTorqueT ToNeu_OpenClutchT ToNeu_Release_ClutchT NoNeu_ZeroTorque
NoNeu_Release_NoClutch NoNeu_OpenClutch_Releasing NoNeu_Release_Clutch NoNeu_SyncSpeed NoNeu_OpenClutch_Setting
NoNeu_SetGear_NoClutch NoNeu_SetGear_ReleasingClutch NoNeu_SetGear_SettingClutch NoNeu_CloseClutch_Releasing
NoNeu_CloseClutch_Setting Error_NoNeu_OpenClutch_Releasing Error_NoNeu_Release_Clutch Error_NoNeu_Release_NoClutch
Error_NoNeu_OpenClutch_Setting Error_NoNeu_SetGear_NoClutch Error_NoNeu_SetGear_ReleasingClutch
Error_NoNeu_SetGear_SettingClutch Error_NoNeu_CloseClutch_Releasing Error_NoNeu_CloseClutch_Setting NoNeu_ZeroTorqueT
NoNeu_Release_NoClutchT NoNeu_OpenClutch_ReleasingT NoNeu_Release_ClutchT NoNeu_SetGear_ReleasingClutchT
NoNeu_SetGear_SettingClutchT NoNeu_SyncSpeedT NoNeu_OpenClutch_SettingT Engine_SyncSpeed Engine_WaitForSyncClutch
Engine_ZeroTorque Engine_WaitForZeroClutch Clutch_Open Error_Clutch_Open Clutch_Close Error_Clutch_Close Gear_Release
Error_Gear_Release Gear_Set Error_Gear_Set FromNeu_RequestOpenClutch ToNeu_RequestOpenClutch
NoNeu_RequestOpenClutch_Releasing NoNeu_RequestOpenClutch_Setting FromNeu_RequestOpenClutchT ToNeu_RequestOpenClutchT
NoNeu_RequestOpenClutch_ReleasingT NoNeu_RequestOpenClutch_SettingT Engine_Request_SyncSpeed Engine_Request_ZeroTorque
Clutch_Request_Open Clutch_Request_Close Gear_Request_Release Gear_Request_Set Engine_Request_SyncSpeedT
Engine_Request_ZeroTorqueT Clutch_Request_OpenT Clutch_Request_CloseT Gear_Request_ReleaseT Gear_Request_SetT
Engine_SyncSpeedT Engine_ZeroTorqueT Clutch_OpenT Clutch_CloseT Gear_ReleaseT Gear_SetT
"""

INITIALISATION = """
act1 : time := 0  act2 : isNeu := TRUE  act3 : RequestNoNeu := FALSE  act4 : RequestToNeu := FALSE
act5 : RequestFromNeu := FALSE  act6 : RequestFromNeuT := 0  act7 : RequestNoNeuT := 0  act8 : RequestToNeuT := 0
act9 : FromNeu_SyncSpeed := FALSE  act10 : FromNeu_OpenClutch := FALSE  act11 : FromNeu_SetGear_NoClutch := FALSE
act12 : FromNeu_SetGear_Clutch := FALSE  act13 : FromNeu_CloseClutch := FALSE
act14 : Error_FromNeu_OpenClutch := FALSE  act15 : Error_FromNeu_SetGear_NoClutch := FALSE
act16 : Error_FromNeu_SetGear_Clutch := FALSE  act17 : Error_FromNeu_CloseClutch := FALSE
act18 : FromNeu_OpenClutchT := 0  act19 : FromNeu_SyncSpeedT := 0  act20 : FromNeu_SetGear_ClutchT := 0
act21 : ToNeu_ZeroTorque := FALSE  act22 : ToNeu_OpenClutch := FALSE  act23 : Error_ToNeu_OpenClutch := FALSE
act24 : ToNeu_Release_NoClutch := FALSE  act25 : Error_ToNeu_Release_NoClutch := FALSE
act26 : ToNeu_Release_Clutch := FALSE  act27 : Error_ToNeu_Release_Clutch := FALSE  act28 : ToNeu_CloseClutch := FALSE
act29 : Error_ToNeu_CloseClutch := FALSE  act30 : ToNeu_ZeroTorqueT := 0  act31 : ToNeu_OpenClutchT := 0
act32 : ToNeu_Release_ClutchT := 0  act33 : NoNeu_ZeroTorque := FALSE  act34 : NoNeu_OpenClutch_Releasing := FALSE
act35 : NoNeu_Release_NoClutch := FALSE  act36 : NoNeu_Release_Clutch := FALSE  act37 : NoNeu_SyncSpeed := FALSE
act38 : NoNeu_OpenClutch_Setting := FALSE  act39 : NoNeu_SetGear_NoClutch := FALSE
act40 : NoNeu_SetGear_ReleasingClutch := FALSE  act41 : NoNeu_SetGear_SettingClutch := FALSE
act42 : NoNeu_CloseClutch_Releasing := FALSE  act43 : NoNeu_CloseClutch_Setting := FALSE
act44 : Error_NoNeu_OpenClutch_Releasing := FALSE  act45 : Error_NoNeu_Release_NoClutch := FALSE
act46 : Error_NoNeu_Release_Clutch := FALSE  act47 : Error_NoNeu_OpenClutch_Setting := FALSE
act48 : Error_NoNeu_SetGear_NoClutch := FALSE  act49 : Error_NoNeu_SetGear_ReleasingClutch := FALSE
act50 : Error_NoNeu_SetGear_SettingClutch := FALSE  act51 : Error_NoNeu_CloseClutch_Releasing := FALSE
act52 : Error_NoNeu_CloseClutch_Setting := FALSE  act53 : NoNeu_ZeroTorqueT := 0  act54 : NoNeu_Release_NoClutchT := 0
act55 : NoNeu_OpenClutch_ReleasingT := 0  act56 : NoNeu_Release_ClutchT := 0  act57 : NoNeu_SyncSpeedT := 0
act58 : NoNeu_OpenClutch_SettingT := 0  act59 : NoNeu_SetGear_ReleasingClutchT := 0
act60 : NoNeu_SetGear_SettingClutchT := 0  act61 : Engine_SyncSpeed := FALSE
act62 : Engine_WaitForSyncClutch := FALSE  act63 : Engine_ZeroTorque := FALSE
act64 : Engine_WaitForZeroClutch := FALSE  act65 : Clutch_Open := FALSE  act66 : Error_Clutch_Open := FALSE
act67 : Clutch_Close := FALSE  act68 : Error_Clutch_Close := FALSE  act69 : Gear_Release := FALSE
act70 : Error_Gear_Release := FALSE  act71 : Gear_Set := FALSE  act72 : Error_Gear_Set := FALSE
act73 : FromNeu_RequestOpenClutch := FALSE  act74 : ToNeu_RequestOpenClutch := FALSE
act75 : NoNeu_RequestOpenClutch_Releasing := FALSE  act76 : NoNeu_RequestOpenClutch_Setting := FALSE
act77 : FromNeu_RequestOpenClutchT := 0  act78 : ToNeu_RequestOpenClutchT := 0
act79 : NoNeu_RequestOpenClutch_ReleasingT := 0  act80 : NoNeu_RequestOpenClutch_SettingT := 0
act81 : Engine_Request_SyncSpeed := FALSE  act82 : Engine_Request_ZeroTorque := FALSE
act83 : Clutch_Request_Open := FALSE  act84 : Clutch_Request_Close := FALSE  act85 : Gear_Request_Release := FALSE
act86 : Gear_Request_Set := FALSE  act87 : Engine_Request_SyncSpeedT := 0  act88 : Engine_Request_ZeroTorqueT := 0
act89 : Clutch_Request_OpenT := 0  act90 : Clutch_Request_CloseT := 0  act91 : Gear_Request_ReleaseT := 0
act92 : Gear_Request_SetT := 0  act93 : Engine_SyncSpeedT := 0  act94 : Engine_ZeroTorqueT := 0
act95 : Clutch_OpenT := 0  act96 : Clutch_CloseT := 0  act97 : Gear_ReleaseT := 0  act98 : Gear_SetT := 0
"""

EVENTS = """
RequestFromNeu
grd1 : RequestFromNeu = FALSE
grd2 : RequestNoNeu = FALSE
grd3 : RequestToNeu = FALSE
grd4 : isNeu = TRUE
act1 : RequestFromNeu := TRUE
act2 : RequestFromNeuT := time

RequestNoNeu
grd1 : RequestFromNeu = FALSE
grd2 : RequestNoNeu = FALSE
grd3 : RequestToNeu = FALSE
grd4 : isNeu = FALSE
act1 : RequestNoNeu := TRUE
act2 : RequestNoNeuT := time

RequestToNeu
grd1 : RequestFromNeu = FALSE
grd2 : RequestNoNeu = FALSE
grd3 : RequestToNeu = FALSE
grd4 : isNeu = FALSE
act1 : RequestToNeu := TRUE
act2 : RequestToNeuT := time

FromNeu_SyncSpeed
grd1 : RequestFromNeu = TRUE
grd2 : FromNeu_SyncSpeed = FALSE
grd3 : FromNeu_RequestOpenClutch = FALSE
grd4 : Engine_SyncSpeed = TRUE
grd5 : time ≤ RequestFromNeuT + Sync_EX
act1 : FromNeu_SyncSpeed := TRUE
act2 : FromNeu_SyncSpeedT := time

FromNeu_RequestOpenClutch
grd1 : RequestFromNeu = TRUE
grd2 : FromNeu_SyncSpeed = FALSE
grd3 : FromNeu_RequestOpenClutch = FALSE
grd4 : time ≥ RequestFromNeuT + OpenClutch_Zero_DE
act1 : FromNeu_RequestOpenClutch := TRUE
act2 : FromNeu_RequestOpenClutchT := time

FromNeu_OpenClutch
grd1 : FromNeu_RequestOpenClutch = TRUE
grd2 : Error_FromNeu_OpenClutch = FALSE
grd3 : FromNeu_OpenClutch = FALSE
grd4 : Clutch_Open = TRUE
act1 : FromNeu_OpenClutch := TRUE
act2 : FromNeu_OpenClutchT := time

Error_FromNeu_OpenClutch
grd1 : FromNeu_RequestOpenClutch = TRUE
grd2 : Error_FromNeu_OpenClutch = FALSE
grd3 : FromNeu_OpenClutch = FALSE
act1 : Error_FromNeu_OpenClutch := TRUE

FromNeu_SetGear_NoClutch
grd1 : FromNeu_SyncSpeed = TRUE
grd2 : Error_FromNeu_SetGear_NoClutch = FALSE
grd3 : FromNeu_SetGear_NoClutch = FALSE
grd4 : Gear_Set = TRUE
act1 : FromNeu_SetGear_NoClutch := TRUE
act2 : isNeu := FALSE

Error_FromNeu_SetGear_NoClutch
grd1 : FromNeu_SyncSpeed = TRUE
grd2 : Error_FromNeu_SetGear_NoClutch = FALSE
grd3 : FromNeu_SetGear_NoClutch = FALSE
grd4 : Gear_Set = TRUE
act1 : Error_FromNeu_SetGear_NoClutch := TRUE

FromNeu_SetGear_Clutch
grd1 : FromNeu_OpenClutch = TRUE
grd2 : Error_FromNeu_SetGear_Clutch = FALSE
grd3 : FromNeu_SetGear_Clutch = FALSE
grd4 : Gear_Set = TRUE
act1 : FromNeu_SetGear_Clutch := TRUE
act2 : FromNeu_SetGear_ClutchT := time

Error_FromNeu_SetGear_Clutch
grd1 : FromNeu_OpenClutch = TRUE
grd2 : Error_FromNeu_SetGear_Clutch = FALSE
grd3 : FromNeu_SetGear_Clutch = FALSE
act1 : Error_FromNeu_SetGear_Clutch := TRUE

FromNeu_CloseClutch
grd1 : FromNeu_SetGear_Clutch = TRUE
grd2 : Error_FromNeu_CloseClutch = FALSE
grd3 : FromNeu_CloseClutch = FALSE
grd4 : Clutch_Close = TRUE
act1 : FromNeu_CloseClutch := TRUE
act2 : isNeu := FALSE

Error_FromNeu_CloseClutch
grd1 : FromNeu_SetGear_Clutch = TRUE
grd2 : Error_FromNeu_CloseClutch = FALSE
grd3 : FromNeu_CloseClutch = FALSE
act1 : Error_FromNeu_CloseClutch := TRUE

ToNeu_ZeroTorque
grd1 : RequestToNeu = TRUE
grd2 : ToNeu_ZeroTorque = FALSE
grd3 : ToNeu_RequestOpenClutch = FALSE
grd4 : Engine_ZeroTorque = TRUE
grd5 : time ≤ RequestToNeuT + Zero_EX
act1 : ToNeu_ZeroTorque := TRUE
act2 : ToNeu_ZeroTorqueT := time

ToNeu_RequestOpenClutch
grd1 : RequestToNeu = TRUE
grd2 : ToNeu_ZeroTorque = FALSE
grd3 : ToNeu_RequestOpenClutch = FALSE
grd4 : time ≥ RequestToNeuT + OpenClutch_Zero_DE
act1 : ToNeu_RequestOpenClutch := TRUE
act2 : ToNeu_RequestOpenClutchT := time

ToNeu_OpenClutch
grd1 : ToNeu_RequestOpenClutch = TRUE
grd2 : ToNeu_OpenClutch = FALSE
grd3 : Error_ToNeu_OpenClutch = FALSE
grd4 : Clutch_Open = TRUE
act1 : ToNeu_OpenClutch := TRUE
act2 : ToNeu_OpenClutchT := time

Error_ToNeu_OpenClutch
grd1 : ToNeu_RequestOpenClutch = TRUE
grd2 : ToNeu_OpenClutch = FALSE
grd3 : Error_ToNeu_OpenClutch = FALSE
act1 : Error_ToNeu_OpenClutch := TRUE

ToNeu_Release_NoClutch
grd1 : ToNeu_ZeroTorque = TRUE
grd2 : ToNeu_Release_NoClutch = FALSE
grd3 : Error_ToNeu_Release_NoClutch = FALSE
grd4 : Gear_Release = TRUE
act1 : ToNeu_Release_NoClutch := TRUE
act2 : isNeu := TRUE

Error_ToNeu_Release_NoClutch
grd1 : ToNeu_ZeroTorque = TRUE
grd2 : ToNeu_Release_NoClutch = FALSE
grd3 : Error_ToNeu_Release_NoClutch = FALSE
act1 : Error_ToNeu_Release_NoClutch := TRUE

ToNeu_Release_Clutch
grd1 : ToNeu_OpenClutch = TRUE
grd2 : ToNeu_Release_Clutch = FALSE
grd3 : Error_ToNeu_Release_Clutch = FALSE
grd4 : Gear_Release = TRUE
act1 : ToNeu_Release_Clutch := TRUE
act2 : ToNeu_Release_ClutchT := time

Error_ToNeu_Release_Clutch
grd1 : ToNeu_OpenClutch = TRUE
grd2 : ToNeu_Release_Clutch = FALSE
grd3 : Error_ToNeu_Release_Clutch = FALSE
act1 : Error_ToNeu_Release_Clutch := TRUE

ToNeu_CloseClutch
grd1 : ToNeu_Release_Clutch = TRUE
grd2 : ToNeu_CloseClutch = FALSE
grd3 : Error_ToNeu_CloseClutch = FALSE
grd4 : Clutch_Close = TRUE
act1 : ToNeu_CloseClutch := TRUE
act2 : isNeu := TRUE

Error_ToNeu_CloseClutch
grd1 : ToNeu_Release_Clutch = TRUE
grd2 : ToNeu_CloseClutch = FALSE
grd3 : Error_ToNeu_CloseClutch = FALSE
act1 : Error_ToNeu_CloseClutch := TRUE

NoNeu_ZeroTorque
grd1 : RequestNoNeu = TRUE
grd2 : NoNeu_ZeroTorque = FALSE
grd3 : NoNeu_RequestOpenClutch_Releasing = FALSE
grd4 : time ≤ RequestNoNeuT + Zero_EX
grd5 : Engine_ZeroTorque = TRUE
act1 : NoNeu_ZeroTorque := TRUE
act2 : NoNeu_ZeroTorqueT := time

NoNeu_RequestOpenClutch_Releasing
grd1 : RequestNoNeu = TRUE
grd2 : NoNeu_ZeroTorque = FALSE
grd3 : NoNeu_RequestOpenClutch_Releasing = FALSE
grd4 : time ≥ RequestNoNeuT + OpenClutch_Zero_DE
act1 : NoNeu_RequestOpenClutch_Releasing := TRUE
act2 : NoNeu_RequestOpenClutch_ReleasingT := time

NoNeu_OpenClutch_Releasing
grd1 : NoNeu_OpenClutch_Releasing = TRUE
grd2 : NoNeu_OpenClutch_Releasing = FALSE
grd3 : Error_NoNeu_OpenClutch_Releasing = FALSE
grd4 : Clutch_Open = TRUE
act1 : NoNeu_OpenClutch_Releasing := TRUE
act2 : NoNeu_OpenClutch_ReleasingT := time

Error_NoNeu_OpenClutch_Releasing
grd1 : NoNeu_RequestOpenClutch_Releasing = TRUE
grd2 : NoNeu_OpenClutch_Releasing = FALSE
grd3 : Error_NoNeu_OpenClutch_Releasing = FALSE
act1 : Error_NoNeu_OpenClutch_Releasing := TRUE

NoNeu_Release_NoClutch
grd1 : NoNeu_ZeroTorque = TRUE
grd2 : NoNeu_Release_NoClutch = FALSE
grd3 : Error_NoNeu_Release_NoClutch = FALSE
grd4 : Gear_Release = TRUE
act1 : NoNeu_Release_NoClutch := TRUE
act2 : NoNeu_Release_NoClutchT := time

Error_NoNeu_Release_NoClutch
grd1 : NoNeu_ZeroTorque = TRUE
grd2 : NoNeu_Release_NoClutch = FALSE
grd3 : Error_NoNeu_Release_NoClutch = FALSE
act1 : Error_NoNeu_Release_NoClutch := TRUE

NoNeu_Release_Clutch
grd1 : NoNeu_OpenClutch_Releasing = TRUE
grd2 : NoNeu_Release_Clutch = FALSE
grd3 : Error_NoNeu_Release_Clutch = FALSE
grd4 : Gear_Release = TRUE
act1 : NoNeu_Release_Clutch := TRUE
act2 : NoNeu_Release_ClutchT := time

Error_NoNeu_Release_Clutch
grd1 : NoNeu_OpenClutch_Releasing = TRUE
grd2 : NoNeu_Release_Clutch = FALSE
grd3 : Error_NoNeu_Release_Clutch = FALSE
act1 : Error_NoNeu_Release_Clutch := TRUE

NoNeu_SyncSpeed
grd1 : NoNeu_Release_NoClutch = TRUE
grd2 : NoNeu_SyncSpeed = FALSE
grd3 : NoNeu_RequestOpenClutch_Setting = FALSE
grd4 : Engine_SyncSpeed = TRUE
grd5 : time ≤ NoNeu_Release_NoClutchT + Sync_EX
act1 : NoNeu_SyncSpeed := TRUE
act2 : NoNeu_SyncSpeedT := time

NoNeu_RequestOpenClutch_Setting
grd1 : NoNeu_Release_NoClutch = TRUE
grd2 : NoNeu_SyncSpeed = FALSE
grd3 : NoNeu_RequestOpenClutch_Setting = FALSE
grd4 : time ≥ NoNeu_Release_NoClutchT + OpenClutch_Sync_DE
act1 : NoNeu_RequestOpenClutch_Setting := TRUE
act2 : NoNeu_RequestOpenClutch_SettingT := time

NoNeu_OpenClutch_Setting
grd1 : NoNeu_RequestOpenClutch_Setting = TRUE
grd2 : Error_NoNeu_OpenClutch_Setting = FALSE
grd3 : NoNeu_OpenClutch_Setting = FALSE
grd4 : Clutch_Open = TRUE
act1 : NoNeu_OpenClutch_Setting := TRUE
act2 : NoNeu_OpenClutch_SettingT := time

Error_NoNeu_OpenClutch_Setting
grd1 : NoNeu_RequestOpenClutch_Setting = TRUE
grd2 : Error_NoNeu_OpenClutch_Setting = FALSE
grd3 : NoNeu_OpenClutch_Setting = FALSE
act1 : Error_NoNeu_OpenClutch_Setting := TRUE

NoNeu_SetGear_NoClutch
grd1 : NoNeu_SyncSpeed = TRUE
grd2 : Error_NoNeu_SetGear_NoClutch = FALSE
grd3 : NoNeu_SetGear_NoClutch = FALSE
grd4 : Gear_Set = TRUE
act1 : NoNeu_SetGear_NoClutch := TRUE

Error_NoNeu_SetGear_NoClutch
grd1 : NoNeu_SyncSpeed = TRUE
grd2 : Error_NoNeu_SetGear_NoClutch = FALSE
grd3 : NoNeu_SetGear_NoClutch = FALSE
act1 : Error_NoNeu_SetGear_NoClutch := TRUE

NoNeu_SetGear_ReleasingClutch
grd1 : NoNeu_Release_Clutch = TRUE
grd2 : Error_NoNeu_SetGear_ReleasingClutch = FALSE
grd3 : NoNeu_SetGear_ReleasingClutch = FALSE
grd4 : Gear_Set = TRUE
act1 : NoNeu_SetGear_ReleasingClutch := TRUE
act2 : NoNeu_SetGear_ReleasingClutchT := time

Error_NoNeu_SetGear_ReleasingClutch
grd1 : NoNeu_Release_Clutch = TRUE
grd2 : Error_NoNeu_SetGear_ReleasingClutch = FALSE
grd3 : NoNeu_SetGear_ReleasingClutch = FALSE
act1 : Error_NoNeu_SetGear_ReleasingClutch := TRUE

NoNeu_SetGear_SettingClutch
grd1 : NoNeu_OpenClutch_Setting = TRUE
grd2 : Error_NoNeu_SetGear_SettingClutch = FALSE
grd3 : NoNeu_SetGear_SettingClutch = FALSE
grd4 : Gear_Set = TRUE
act1 : NoNeu_SetGear_SettingClutch := TRUE
act2 : NoNeu_SetGear_SettingClutchT := time

Error_NoNeu_SetGear_SettingClutch
grd1 : NoNeu_OpenClutch_Setting = TRUE
grd2 : Error_NoNeu_SetGear_SettingClutch = FALSE
grd3 : NoNeu_SetGear_SettingClutch = FALSE
act1 : Error_NoNeu_SetGear_SettingClutch := TRUE

NoNeu_CloseClutch_Setting
grd1 : NoNeu_SetGear_SettingClutch = TRUE
grd2 : Error_NoNeu_CloseClutch_Setting = FALSE
grd3 : NoNeu_CloseClutch_Setting = FALSE
grd4 : Clutch_Close = TRUE
act1 : NoNeu_CloseClutch_Setting := TRUE

Error_NoNeu_CloseClutch_Setting
grd1 : NoNeu_SetGear_SettingClutch = TRUE
grd2 : Error_NoNeu_CloseClutch_Setting = FALSE
grd3 : NoNeu_CloseClutch_Setting = FALSE
act1 : Error_NoNeu_CloseClutch_Setting := TRUE

NoNeu_CloseClutch_Releasing
grd1 : NoNeu_SetGear_ReleasingClutch = TRUE
grd2 : Error_NoNeu_CloseClutch_Releasing = FALSE
grd3 : NoNeu_CloseClutch_Releasing = FALSE
grd4 : Clutch_Close = TRUE
act1 : NoNeu_CloseClutch_Releasing := TRUE

Error_NoNeu_CloseClutch_Releasing
grd1 : NoNeu_SetGear_ReleasingClutch = TRUE
grd2 : Error_NoNeu_CloseClutch_Releasing = FALSE
grd3 : NoNeu_CloseClutch_Releasing = FALSE
act1 : Error_NoNeu_CloseClutch_Releasing := TRUE

Engine_Request_SyncSpeed
grd1 : RequestFromNeu = TRUE ∨ NoNeu_Release_NoClutch = TRUE
grd2 : Engine_Request_SyncSpeed = FALSE
act1 : Engine_Request_SyncSpeed := TRUE
act2 : Engine_Request_SyncSpeedT := time

Engine_SyncSpeed
grd1 : Engine_Request_SyncSpeed = TRUE
grd2 : Engine_SyncSpeed = FALSE
grd3 : Engine_WaitForSyncClutch = FALSE
act1 : Engine_SyncSpeed := TRUE
act2 : Engine_SyncSpeedT := time

Engine_WaitForSyncClutch
grd1 : Engine_Request_SyncSpeed = TRUE
grd2 : Engine_SyncSpeed = FALSE
grd3 : Engine_WaitForSyncClutch = FALSE
act1 : Engine_WaitForSyncClutch := TRUE

Engine_Request_ZeroTorque
grd1 : RequestToNeu = TRUE ∨ RequestNoNeu = TRUE
grd2 : Engine_Request_ZeroTorque = FALSE
act1 : Engine_Request_ZeroTorque := TRUE
act2 : Engine_Request_ZeroTorqueT := time

Engine_ZeroTorque
grd1 : Engine_Request_ZeroTorque = TRUE
grd2 : Engine_ZeroTorque = FALSE
grd3 : Engine_WaitForZeroClutch = FALSE
act1 : Engine_ZeroTorque := TRUE
act2 : Engine_ZeroTorqueT := time

Engine_WaitForZeroClutch
grd1 : Engine_Request_ZeroTorque = TRUE
grd2 : Engine_ZeroTorque = FALSE
grd3 : Engine_WaitForZeroClutch = FALSE
act1 : Engine_WaitForZeroClutch := TRUE

Clutch_Request_Open
grd1 : FromNeu_RequestOpenClutch = TRUE ∨ ToNeu_RequestOpenClutch = TRUE ∨ NoNeu_RequestOpenClutch_Releasing = TRUE ∨
    NoNeu_RequestOpenClutch_Setting = TRUE
grd2 : Clutch_Request_Open = FALSE
act1 : Clutch_Request_Open := TRUE
act2 : Clutch_Request_OpenT := time

Clutch_Open
grd1 : Clutch_Request_Open = TRUE
grd2 : Clutch_Open = FALSE
grd3 : Error_Clutch_Open = FALSE
act1 : Clutch_Open := TRUE
act2 : Clutch_OpenT := time

Error_Clutch_Open
grd1 : Clutch_Request_Open = TRUE
grd2 : Clutch_Open = FALSE
grd3 : Error_Clutch_Open = FALSE
act1 : Error_Clutch_Open := TRUE

Clutch_Request_Close
grd1 : FromNeu_SetGear_Clutch = TRUE ∨ ToNeu_Release_Clutch = TRUE ∨ NoNeu_SetGear_ReleasingClutch = TRUE ∨
    NoNeu_SetGear_SettingClutch = TRUE
grd2 : Clutch_Request_Close = FALSE
act1 : Clutch_Request_Close := TRUE
act2 : Clutch_Request_CloseT := time

Clutch_Close
grd1 : Clutch_Request_Close = TRUE
grd2 : Clutch_Close = FALSE
grd3 : Error_Clutch_Close = FALSE
act1 : Clutch_Close := TRUE
act2 : Clutch_CloseT := time

Error_Clutch_Close
grd1 : Clutch_Request_Close = TRUE
grd2 : Clutch_Close = FALSE
grd3 : Error_Clutch_Close = FALSE
act1 : Error_Clutch_Close := TRUE

Gear_Request_Release
grd1 : ToNeu_ZeroTorque = TRUE ∨ ToNeu_OpenClutch = TRUE ∨ NoNeu_ZeroTorque = TRUE ∨ NoNeu_OpenClutch_Releasing = TRUE
grd2 : Gear_Request_Release = FALSE
act1 : Gear_Request_Release := TRUE
act2 : Gear_Request_ReleaseT := time

Gear_Release
grd1 : Gear_Request_Release = TRUE
grd2 : Gear_Release = FALSE
grd3 : Error_Gear_Release = FALSE
act1 : Gear_Release := TRUE
act2 : Gear_ReleaseT := time

Error_Gear_Release
grd1 : Gear_Request_Release = TRUE
grd2 : Gear_Release = FALSE
grd3 : Error_Gear_Release = FALSE
act1 : Error_Gear_Release := TRUE

Gear_Request_Set
grd1 : FromNeu_SyncSpeed = TRUE ∨ FromNeu_OpenClutch = TRUE ∨ NoNeu_Release_Clutch = TRUE ∨ NoNeu_SyncSpeed = TRUE ∨
    NoNeu_OpenClutch_Setting = TRUE
grd2 : Gear_Request_Set = FALSE
act1 : Gear_Request_Set := TRUE
act2 : Gear_Request_SetT := time

Gear_Set
grd1 : Gear_Request_Set = TRUE
grd2 : Gear_Set = FALSE
grd3 : Error_Gear_Set = FALSE
act1 : Gear_Set := TRUE
act2 : Gear_SetT := time

Error_Gear_Set
grd1 : Gear_Request_Set = TRUE
grd2 : Gear_Set = FALSE
grd3 : Error_Gear_Set = FALSE
act1 : Error_Gear_Set := TRUE

FINAL
grd1 : FromNeu_SetGear_NoClutch = TRUE ∨ NoNeu_SetGear_NoClutch = TRUE ∨ ToNeu_Release_NoClutch = TRUE ∨
    FromNeu_CloseClutch = TRUE ∨ NoNeu_CloseClutch_Setting = TRUE ∨ NoNeu_CloseClutch_Releasing = TRUE ∨
    ToNeu_CloseClutch = TRUE
act1 : RequestFromNeu := FALSE
act2 : RequestNoNeu := FALSE
act3 : RequestToNeu := FALSE
act4 : FromNeu_SyncSpeed := FALSE
act5 : FromNeu_OpenClutch := FALSE
act6 : FromNeu_SetGear_NoClutch := FALSE
act7 : FromNeu_SetGear_Clutch := FALSE
act8 : FromNeu_CloseClutch := FALSE
act9 : ToNeu_Release_NoClutch := FALSE
act10 : ToNeu_CloseClutch := FALSE
act11 : ToNeu_ZeroTorque := FALSE
act12 : ToNeu_OpenClutch := FALSE
act13 : ToNeu_Release_Clutch := FALSE
act14 : NoNeu_ZeroTorque := FALSE
act15 : NoNeu_OpenClutch_Releasing := FALSE
act16 : NoNeu_Release_NoClutch := FALSE
act17 : NoNeu_Release_Clutch := FALSE
act18 : NoNeu_SyncSpeed := FALSE
act19 : NoNeu_OpenClutch_Setting := FALSE
act20 : NoNeu_SetGear_NoClutch := FALSE
act21 : NoNeu_SetGear_ReleasingClutch := FALSE
act22 : NoNeu_SetGear_SettingClutch := FALSE
act23 : NoNeu_CloseClutch_Setting := FALSE
act24 : NoNeu_CloseClutch_Releasing := FALSE
act25 : Engine_SyncSpeed := FALSE
act26 : Engine_WaitForSyncClutch := FALSE
act27 : Engine_ZeroTorque := FALSE
act28 : Engine_WaitForZeroClutch := FALSE
act29 : Clutch_Open := FALSE
act30 : Clutch_Close := FALSE
act31 : Gear_Release := FALSE
act32 : Gear_Set := FALSE
act33 : FromNeu_RequestOpenClutch := FALSE
act34 : ToNeu_RequestOpenClutch := FALSE
act35 : NoNeu_RequestOpenClutch_Releasing := FALSE
act36 : NoNeu_RequestOpenClutch_Setting := FALSE
act37 : Engine_Request_SyncSpeed := FALSE
act38 : Engine_Request_ZeroTorque := FALSE
act39 : Clutch_Request_Open := FALSE
act40 : Clutch_Request_Close := FALSE
act41 : Gear_Request_Release := FALSE
act42 : Gear_Request_Set := FALSE

Tick_Tock
grd1 : tick > 0
grd2 : RequestFromNeu = TRUE ∧ FromNeu_RequestOpenClutch = FALSE ∧ FromNeu_SyncSpeed = FALSE
    ⇒ time + tick ≤ Sync_DL + RequestFromNeuT
grd3 : FromNeu_RequestOpenClutch = TRUE ∧ FromNeu_OpenClutch = FALSE ∧ Error_FromNeu_OpenClutch = FALSE
    ⇒ time + tick ≤ OpenClutch_DL + FromNeu_RequestOpenClutchT
grd4 : FromNeu_OpenClutch = TRUE ∧ FromNeu_SetGear_Clutch = FALSE ∧ Error_FromNeu_SetGear_Clutch = FALSE
    ⇒ time + tick ≤ SetGear_DL + FromNeu_OpenClutchT
grd5 : FromNeu_SyncSpeed = TRUE ∧ FromNeu_SetGear_NoClutch = FALSE ∧ Error_FromNeu_SetGear_NoClutch = FALSE
    ⇒ time + tick ≤ SetGear_DL + FromNeu_SyncSpeedT
grd6 : FromNeu_SetGear_Clutch = TRUE ∧ FromNeu_CloseClutch = FALSE ∧ Error_FromNeu_CloseClutch = FALSE
    ⇒ time + tick ≤ CloseClutch_DL + FromNeu_SetGear_ClutchT
grd7 : RequestToNeu = TRUE ∧ ToNeu_RequestOpenClutch = FALSE ∧ ToNeu_ZeroTorque = FALSE
    ⇒ time + tick ≤ Zero_DL + RequestToNeuT
grd8 : ToNeu_RequestOpenClutch = TRUE ∧ ToNeu_OpenClutch = FALSE ∧ Error_ToNeu_OpenClutch = FALSE
    ⇒ time + tick ≤ OpenClutch_DL + ToNeu_RequestOpenClutchT
grd9 : ToNeu_ZeroTorque = TRUE ∧ ToNeu_Release_NoClutch = FALSE ∧ Error_ToNeu_Release_NoClutch = FALSE
    ⇒ time + tick ≤ Release_DL + ToNeu_ZeroTorqueT
grd10 : ToNeu_OpenClutch = TRUE ∧ ToNeu_Release_Clutch = FALSE ∧ Error_ToNeu_Release_Clutch = FALSE
    ⇒ time + tick ≤ Release_DL + ToNeu_OpenClutchT
grd11 : ToNeu_Release_Clutch = TRUE ∧ ToNeu_CloseClutch = FALSE ∧ Error_ToNeu_CloseClutch = FALSE
    ⇒ time + tick ≤ CloseClutch_DL + ToNeu_Release_ClutchT
grd12 : RequestNoNeu = TRUE ∧ NoNeu_ZeroTorque = FALSE ∧ NoNeu_RequestOpenClutch_Releasing = FALSE
    ⇒ time + tick ≤ Zero_DL + RequestNoNeuT
grd13 : NoNeu_RequestOpenClutch_Releasing = TRUE ∧ NoNeu_OpenClutch_Releasing = FALSE ∧
    Error_NoNeu_OpenClutch_Releasing = FALSE
    ⇒ time + tick ≤ OpenClutch_DL + NoNeu_RequestOpenClutch_ReleasingT
grd14 : NoNeu_ZeroTorque = TRUE ∧ NoNeu_Release_NoClutch = FALSE ∧ Error_NoNeu_Release_NoClutch = FALSE
    ⇒ time + tick ≤ Release_DL + NoNeu_ZeroTorqueT
grd15 : NoNeu_Release_NoClutch = TRUE ∧ NoNeu_SyncSpeed = FALSE ∧ NoNeu_RequestOpenClutch_Setting = FALSE
    ⇒ time + tick ≤ Sync_DL + NoNeu_Release_NoClutchT
grd16 : NoNeu_RequestOpenClutch_Setting = TRUE ∧ NoNeu_OpenClutch_Setting = FALSE ∧
    Error_NoNeu_OpenClutch_Setting = FALSE
    ⇒ time + tick ≤ OpenClutch_DL + NoNeu_RequestOpenClutch_SettingT
grd17 : NoNeu_SyncSpeed = TRUE ∧ NoNeu_SetGear_NoClutch = FALSE ∧ Error_NoNeu_SetGear_NoClutch = FALSE
    ⇒ time + tick ≤ SetGear_DL + NoNeu_SyncSpeedT
grd18 : NoNeu_OpenClutch_Setting = TRUE ∧ NoNeu_SetGear_SettingClutch = FALSE ∧
    Error_NoNeu_SetGear_SettingClutch = FALSE
    ⇒ time + tick ≤ SetGear_DL + NoNeu_OpenClutch_SettingT
grd19 : NoNeu_SetGear_SettingClutch = TRUE ∧ NoNeu_CloseClutch_Setting = FALSE ∧
    Error_NoNeu_CloseClutch_Setting = FALSE
    ⇒ time + tick ≤ CloseClutch_DL + NoNeu_SetGear_SettingClutchT
grd20 : NoNeu_OpenClutch_Releasing = TRUE ∧ NoNeu_Release_Clutch = FALSE ∧ Error_NoNeu_Release_Clutch = FALSE
    ⇒ time + tick ≤ Release_DL + NoNeu_OpenClutch_ReleasingT
grd21 : NoNeu_Release_Clutch = TRUE ∧ NoNeu_SetGear_ReleasingClutch = FALSE ∧
    Error_NoNeu_SetGear_ReleasingClutch = FALSE
    ⇒ time + tick ≤ SetGear_DL + NoNeu_Release_ClutchT
grd22 : NoNeu_SetGear_ReleasingClutch = TRUE ∧ NoNeu_CloseClutch_Releasing = FALSE ∧
    Error_NoNeu_CloseClutch_Releasing = FALSE
    ⇒ time + tick ≤ CloseClutch_DL + NoNeu_SetGear_ReleasingClutchT
grd23 : RequestFromNeu = TRUE ∧ Engine_Request_SyncSpeed = FALSE ⇒ time + tick ≤ RequestFromNeuT + Channel_DL
grd24 : NoNeu_Release_NoClutch = TRUE ∧ Engine_Request_SyncSpeed = FALSE
    ⇒ time + tick ≤ NoNeu_Release_NoClutchT + Channel_DL
grd25 : RequestToNeu = TRUE ∧ Engine_Request_ZeroTorque = FALSE ⇒ time + tick ≤ RequestToNeuT + Channel_DL
grd26 : RequestNoNeu = TRUE ∧ Engine_Request_ZeroTorque = FALSE ⇒ time + tick ≤ RequestNoNeuT + Channel_DL
grd27 : Engine_ZeroTorque = TRUE ∧ ToNeu_ZeroTorque = FALSE ∧ NoNeu_ZeroTorque = FALSE
    ⇒ time + tick ≤ Engine_ZeroTorqueT + Channel_DL
grd28 : Engine_SyncSpeed = TRUE ∧ FromNeu_SyncSpeed = FALSE ∧ NoNeu_SyncSpeed = FALSE
    ⇒ time + tick ≤ Engine_SyncSpeedT + Channel_DL
grd29 : FromNeu_RequestOpenClutch = TRUE ∧ Clutch_Request_Open = FALSE
    ⇒ time + tick ≤ FromNeu_RequestOpenClutchT + Channel_DL
grd30 : ToNeu_RequestOpenClutch = TRUE ∧ Clutch_Request_Open = FALSE
    ⇒ time + tick ≤ ToNeu_RequestOpenClutchT + Channel_DL
grd31 : NoNeu_RequestOpenClutch_Releasing = TRUE ∧ Clutch_Request_Open = FALSE
    ⇒ time + tick ≤ NoNeu_RequestOpenClutch_ReleasingT + Channel_DL
grd32 : NoNeu_RequestOpenClutch_Setting = TRUE ∧ Clutch_Request_Open = FALSE
    ⇒ time + tick ≤ NoNeu_RequestOpenClutch_SettingT + Channel_DL
grd33 : FromNeu_SetGear_Clutch = TRUE ∧ Clutch_Request_Close = FALSE
    ⇒ time + tick ≤ FromNeu_SetGear_ClutchT + Channel_DL
grd34 : NoNeu_SetGear_ReleasingClutch = TRUE ∧ Clutch_Request_Close = FALSE
    ⇒ time + tick ≤ NoNeu_SetGear_ReleasingClutchT + Channel_DL
grd35 : NoNeu_SetGear_SettingClutch = TRUE ∧ Clutch_Request_Close = FALSE
    ⇒ time + tick ≤ FromNeu_SetGear_ClutchT + Channel_DL
grd36 : ToNeu_Release_Clutch = TRUE ∧ Clutch_Request_Close = FALSE ⇒ time + tick ≤ ToNeu_Release_ClutchT + Channel_DL
grd37 : Clutch_Open = TRUE ∧ FromNeu_OpenClutch = FALSE ∧ ToNeu_OpenClutch = FALSE ∧
    NoNeu_OpenClutch_Releasing = FALSE ∧ NoNeu_OpenClutch_Setting = FALSE
    ⇒ time + tick ≤ Clutch_OpenT + Channel_DL
grd38 : Clutch_Close = TRUE ∧ FromNeu_CloseClutch = FALSE ∧ ToNeu_CloseClutch = FALSE ∧
    NoNeu_CloseClutch_Releasing = FALSE ∧ NoNeu_CloseClutch_Setting = FALSE
    ⇒ time + tick ≤ Clutch_CloseT + Channel_DL
grd39 : ToNeu_ZeroTorque = TRUE ∧ Gear_Request_Release = FALSE ⇒ time + tick ≤ ToNeu_ZeroTorqueT + Channel_DL
grd40 : ToNeu_OpenClutch = TRUE ∧ Gear_Request_Release = FALSE ⇒ time + tick ≤ ToNeu_OpenClutchT + Channel_DL
grd41 : NoNeu_ZeroTorque = TRUE ∧ Gear_Request_Release = FALSE ⇒ time + tick ≤ NoNeu_ZeroTorqueT + Channel_DL
grd42 : NoNeu_OpenClutch_Releasing = TRUE ∧ Gear_Request_Release = FALSE
    ⇒ time + tick ≤ NoNeu_OpenClutch_ReleasingT + Channel_DL
grd43 : NoNeu_SyncSpeed = TRUE ∧ Gear_Request_Set = FALSE ⇒ time + tick ≤ NoNeu_SyncSpeedT + Channel_DL
grd44 : NoNeu_OpenClutch_Setting = TRUE ∧ Gear_Request_Set = FALSE
    ⇒ time + tick ≤ NoNeu_OpenClutch_SettingT + Channel_DL
grd45 : NoNeu_Release_Clutch = TRUE ∧ Gear_Request_Set = FALSE ⇒ time + tick ≤ NoNeu_Release_ClutchT + Channel_DL
grd46 : FromNeu_SyncSpeed = TRUE ∧ Gear_Set = FALSE ⇒ time + tick ≤ FromNeu_SyncSpeedT + Channel_DL
grd47 : ToNeu_OpenClutch = TRUE ∧ Gear_Set = FALSE ⇒ time + tick ≤ ToNeu_OpenClutchT + Channel_DL
grd48 : Gear_Release = TRUE ∧ ToNeu_Release_Clutch = FALSE ∧ ToNeu_Release_NoClutch = FALSE ∧
    NoNeu_Release_NoClutch = FALSE ∧ NoNeu_Release_Clutch = FALSE
    ⇒ time + tick ≤ Gear_ReleaseT + Channel_DL
grd49 : Gear_Set = TRUE ∧ FromNeu_SetGear_Clutch = FALSE ∧ FromNeu_SetGear_NoClutch = FALSE ∧
    NoNeu_SetGear_NoClutch = FALSE ∧ NoNeu_SetGear_ReleasingClutch = FALSE ∧ NoNeu_SetGear_SettingClutch = FALSE
    ⇒ time + tick ≤ Gear_SetT + Channel_DL
grd50 : Engine_Request_SyncSpeed = TRUE ∧ Engine_SyncSpeed = FALSE ∧ Engine_WaitForSyncClutch = FALSE
    ⇒ time + tick ≤ Engine_Request_SyncSpeedT + Engine_Sync_DL
grd51 : Engine_Request_ZeroTorque = TRUE ∧ Engine_ZeroTorque = FALSE ∧ Engine_WaitForZeroClutch = FALSE
    ⇒ time + tick ≤ Engine_Request_ZeroTorqueT + Engine_Zero_DL
grd52 : Clutch_Request_Open = TRUE ∧ Clutch_Open = FALSE ∧ Error_Clutch_Open = FALSE
    ⇒ time + tick ≤ Clutch_Request_OpenT + Clutch_Open_DL
grd53 : Clutch_Request_Close = TRUE ∧ Clutch_Close = FALSE ∧ Error_Clutch_Close = FALSE
    ⇒ time + tick ≤ Clutch_Request_CloseT + Clutch_Close_DL
grd54 : Gear_Request_Release = TRUE ∧ Gear_Release = FALSE ∧ Error_Gear_Release = FALSE
    ⇒ time + tick ≤ Gear_Request_ReleaseT + Gear_Release_DL
grd55 : Gear_Request_Set = TRUE ∧ Gear_Set = FALSE ∧ Error_Gear_Set = FALSE
    ⇒ time + tick ≤ Gear_Request_SetT + Gear_Set_DL
act1 : time := time + tick
"""
