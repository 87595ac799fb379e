"""Tests of the comparison of the project's text with the manual's events: it fails where the text is edited."""

import io
import unittest
from contextlib import redirect_stdout
from importlib.machinery import SourceFileLoader
from importlib.util import module_from_spec, spec_from_loader
from pathlib import Path
from unittest.mock import patch

import m9_text
import manual_page
from m9_text import EVENT_CODE, NAMES, RESETS, SPECS, STEPS, STRUCT, TICK_CODE, TICKS, VARIABLES
from versions import HERE

FROM, GEARS, DEVICES, FINAL = (f"{SPECS}/{name}.antt" for name in ("FromNeutral", "GearToGear", "Devices", "Final"))
NEUTRAL_CODE, DEVICE_CODE, GEAR_CODE = (EVENT_CODE[f"manual_{name}"] for name in ("neutral", "devices", "gears"))

IS_GOOD, LATE = "(v.Engine_SyncSpeed ! 7)  -- grd4", "(leb v.time (v.RequestFromNeuT + t.sync_ex) ! 10)"
LATE_BY, EARLY_BY = "(v.time - (v.RequestFromNeuT + t.sync_ex))", "((v.RequestFromNeuT + t.sync_de) - v.time)"
WHY = "; 01: the delay of an engine that synchronizes; printed OpenClutch_Zero_DE"

# A file, a text that stands in it, the text in its place, and what is said of it.
EDITS = [
    (FROM, IS_GOOD, "(v.Engine_ZeroTorque ! 7)  -- grd4", "FromNeu_SyncSpeed grd4"),
    (FROM, IS_GOOD, "(v.Engine_SyncSpeed ! 8)  -- grd4", "FromNeu_SyncSpeed grd4"),
    (FROM, IS_GOOD, "(not v.Engine_SyncSpeed ! 7)  -- grd4", "FromNeu_SyncSpeed grd4"),
    (FROM, "    ∷ (v.Engine_SyncSpeed ! 7)  -- grd4\n", "", "FromNeu_SyncSpeed grd4"),
    (FROM, "t.sync_de) v.time", "t.zero_de) v.time", "FromNeu_RequestOpenClutch grd4"),
    (FROM, WHY, "", "FromNeu_RequestOpenClutch grd4"),
    (FROM, "printed OpenClutch_Zero_DE", "printed OpenClutch_Sync_DE", "FromNeu_RequestOpenClutch grd4"),
    (FROM, LATE, "(leb (v.RequestFromNeuT + t.sync_ex) v.time ! 10)", "FromNeu_SyncSpeed grd5"),
    (FROM, LATE_BY, LATE_BY.replace("sync", "zero"), "FromNeu_SyncSpeed past grd5"),
    (FROM, LATE_BY, "((v.RequestFromNeuT + t.sync_ex) - v.time)", "FromNeu_SyncSpeed past grd5"),
    (FROM, f"timed\n    {LATE_BY}  -- past grd5", "event", "FromNeu_SyncSpeed past grd5"),
    (FROM, f"{LATE_BY}  -- past grd5", f"{LATE_BY}  -- past grd4", "FromNeu_SyncSpeed past grd4"),
    (FROM, EARLY_BY, EARLY_BY.replace("_de", "_ex"), "FromNeu_RequestOpenClutch before grd4"),
    (GEARS, "(v.time - (v.NoNeu_Release_NoClutchT", "(v.time - (v.RequestNoNeuT", "NoNeu_SyncSpeed past grd5"),
    (FROM, "stamp Time.FromNeu_OpenClutchT", "stamp Time.FromNeu_SyncSpeedT", "FromNeu_OpenClutch act2"),
    (FROM, "abbrev pub FromNeu_CloseClutch", "-- FromNeu_CloseClutch", "the events in order"),
    (GEARS, "NoNeu_RequestOpenClutch_Releasing ! 7)  -- grd1; 01", "NoNeu_OpenClutch_Releasing ! 7)  -- grd1; 01",
     "NoNeu_OpenClutch_Releasing grd1"),
    (FROM, "    ∷ set_neu false  -- 02:", "    ∷ set_neu true  -- 02:", "FromNeu_SetGear_Clutch 02"),
    (FROM, "set_neu false  -- 02: taking a set order makes the box in gear; not printed", "set_neu false  -- act3",
     "FromNeu_SetGear_Clutch: its labels in order"),
    (FROM, "    -- act2; 02: left out", "    ∷ set_neu false  -- act2; 02: left out", "FromNeu_CloseClutch act2"),
    (FROM, "printed isNeu := FALSE", "printed isNeu := TRUE", "FromNeu_CloseClutch act2"),
    (GEARS, "    ∷ set_neu true  -- 02: taking a release order makes the box neutral; not printed\n", "",
     "NoNeu_Release_NoClutch 02"),
    (RESETS, "    || v.Error_NoNeu_CloseClutch_Setting\n", "", "RESET grd1"),
    (RESETS, "(erred v ! 7)", "(erred v ! 8)", "RESET grd1"),
    (RESETS, "(λ (f : Flag). false)", "(λ (f : Flag). true)", "RESET act1"),
    (RESETS, "lower_all v = variables v.time v.isNeu", "lower_all v = variables v.time true", "RESET act63"),
    (DEVICES, "v.RequestFromNeu || v.NoNeu_Release_NoClutch", "v.RequestFromNeu || v.NoNeu_Release_Clutch",
     "Engine_Request_SyncSpeed grd1"),
    (FINAL, "lower Flag.Gear_Request_Set", "raise Flag.Gear_Request_Set", "FINAL act42"),
    (FINAL, "    ∷ lower Flag.Gear_Request_Set  -- act42\n", "", "FINAL: its labels in order"),
    (FINAL, "-- act7\n", "-- act8\n", "FINAL: its labels in order"),
    (TICKS, "v.NoNeu_SetGear_SettingClutchT t.channel_dl", "v.FromNeu_SetGear_ClutchT t.channel_dl",
     "Tick_Tock grd35"),
    (TICKS, "t.clutch_open_dl", "t.clutch_close_dl", "Tick_Tock grd52"),
    (TICKS, "(v.Engine_ZeroTorque && not", "(v.Engine_SyncSpeed && not", "Tick_Tock grd27"),
    (TICKS, "refusing 12 (stage_limits", "refusing 11 (stage_limits", "Tick_Tock grd23"),
    (TICKS, "(now - 4294967295)", "(now - 4294967294)", "the clock's end"),
    (TICKS, "(stage_limits t v now ++ phase_limits t v now)", "(phase_limits t v now ++ stage_limits t v now)",
     "Tick_Tock: its excess"),
    (TICKS, "excess = tick_excess t v (v.time + tick)", "excess = tick_excess t v v.time", "Tick_Tock act1"),
    (TICKS, "scenario1 t v now ++ (scenario3 t v now", "scenario3 t v now ++ (scenario1 t v now",
     "Tick_Tock: its labels in order"),
    (STEPS, "    ∷ Gear_Set v\n", "", "step DeviceGood"),
    (STEPS, "(take_to_neutral t v ∷ take_gear_to_gear t v ∷ [])", "(take_gear_to_gear t v ∷ take_to_neutral t v ∷ [])",
     "step Take"),
    (STEPS, "stepped t v Finish = FINAL v", "stepped t v Finish = RequestToNeu v", "step Finish"),
    (STEPS, "stepped t v Reset = RESET v", "stepped t v Reset = FINAL v", "step Reset"),
    (NAMES, "flag_number Gear_Set = 71", "flag_number Gear_Set = 72", "number of Gear_Set"),
    (NAMES, "  RequestNoNeu : Flag\n  RequestToNeu : Flag\n", "  RequestToNeu : Flag\n  RequestNoNeu : Flag\n",
     "the flags in order"),
    (VARIABLES, "flag v RequestNoNeu = v.RequestNoNeu", "flag v RequestNoNeu = v.RequestToNeu", "flag RequestNoNeu"),
    (VARIABLES, "variables 0 true (λ (f", "variables 0 false (λ (f", "initialisation"),
    (VARIABLES, "  RequestNoNeu = f RequestNoNeu;", "  RequestNoNeu = f RequestToNeu;", "the variables in order"),
    (STRUCT, "    pub isNeu: bool,\n", "", "the variables in order"),
    (STRUCT, "            isNeu: true,", "            isNeu: false,", "initialisation of isNeu"),
    (NEUTRAL_CODE, "& v.Engine_SyncSpeed; // grd4", "& v.Engine_ZeroTorque; // grd4", "FromNeu_SyncSpeed grd4"),
    (NEUTRAL_CODE, "table.sync_de); // grd4", "table.zero_de); // grd4", "FromNeu_RequestOpenClutch grd4"),
    (NEUTRAL_CODE, "late_by(v.time, v.RequestFromNeuT, table.sync_ex)", "late_by(v.time, v.RequestFromNeuT, table.zero_ex)",
     "FromNeu_SyncSpeed past grd5"),
    (NEUTRAL_CODE, "early_by(v.time, v.RequestFromNeuT", "late_by(v.time, v.RequestFromNeuT",
     "FromNeu_RequestOpenClutch before grd4"),
    (GEAR_CODE, "late_by(v.time, v.NoNeu_Release_NoClutchT", "late_by(v.time, v.RequestNoNeuT",
     "NoNeu_SyncSpeed past grd5"),
    (GEAR_CODE, "        excess,\n", "        excess: 0,\n", "can't be read to its end"),
    (DEVICE_CODE, "        ..Event::free(enabled, v)\n", "        excess: 1,\n        ..Event::free(enabled, v)\n", "can't be read to its end"),
    (STRUCT, "            enabled,\n            number: 0,", "            enabled,\n            number: 1,", "free: what it answers can't be read"),
    (STRUCT, "            number,\n            rule: 0,", "            number,\n            rule: 1,", "refused: what it answers can't be read"),
    (STRUCT, "            rule: 0,\n            excess: 0,\n            variables,", "            rule: 0,\n            excess: 1,\n            variables,",
     "accepted: what it answers can't be read"),
    (DEVICES, "(leb (v.Clutch_Request_CloseT + t.clutch_close_de)", "(leb (v.Clutch_Request_OpenT + t.clutch_close_de)",
     "Clutch_Close 02"),
    (DEVICES, "+ t.error_clutch_open_de) - v.time", "+ t.clutch_open_de) - v.time", "Error_Clutch_Open before 02"),
    (DEVICE_CODE, "early(v.time, v.Clutch_Request_OpenT, table.clutch_open_de)",
     "early(v.time, v.Clutch_Request_OpenT, table.error_clutch_open_de)", "Clutch_Open 02"),
    (NEUTRAL_CODE, "v.isNeu = false; // act2", "v.isNeu = true; // act2", "FromNeu_SetGear_NoClutch act2"),
    (NEUTRAL_CODE, "pub fn FromNeu_SyncSpeed(", "pub fn FromNeu_Synchronized(",
     "the events of manual_neutral in order"),
    (DEVICE_CODE, "on_side(v.isNeu); // grd4", "on_side(!v.isNeu); // grd4", "RequestFromNeu grd4"),
    (DEVICE_CODE, "    v.Gear_Request_Set = false; // act42\n", "", "FINAL act42"),
    (DEVICE_CODE, "        ..Variables::default()\n", "        Error_Gear_Set: v.Error_Gear_Set,\n        ..Variables::default()\n", "RESET act53"),
    (DEVICE_CODE, "        Gear_SetT: v.Gear_SetT,\n", "", "RESET: what it hands on can't be read"),
    (STRUCT, "\n            | self.Error_NoNeu_CloseClutch_Setting", "", "RESET grd1"),
    (GEAR_CODE, "v.isNeu = true; // 02", "v.isNeu = false; // 02", "NoNeu_Release_NoClutch 02"),
    (NEUTRAL_CODE, "    // act2; 02: left out", "    v.isNeu = false; // act2; 02: left out", "FromNeu_CloseClutch act2"),
    (TICK_CODE, "limit: table.gear_set_dl,", "limit: table.gear_release_dl,", "Tick_Tock grd55"),
    (TICK_CODE, "refused(12, over, v)", "refused(11, over, v)", "Tick_Tock grd55"),
    (TICK_CODE, "refused(12, over, v)", "refused(12, now, v)", "what it asks for can't be read"),
    (TICK_CODE, "beyond(now, 4294967295)", "beyond(now, 4294967294)", "the clock's end"),
    (TICK_CODE, "; 01: until the order is delivered; printed Gear_Set", "", "Tick_Tock grd46"),
    (TICK_CODE, "first_past(&guards, now)", "first_past(&guards[1..], now)", "not all asked"),
    (TICK_CODE, "first_past(&guards, now)", "first_past(&guards[..20], now)", "not all asked"),
    (TICK_CODE, "fn phase_limits(", "fn limits_of_phases(", "can't be read"),
    (STRUCT, "pub struct Variables {", "pub struct Flags {", "can't be read"),
]


def script():
    """The program `manual` as a module."""
    loader = SourceFileLoader("manual", str(HERE / "manual"))
    module = module_from_spec(spec_from_loader("manual", loader))
    loader.exec_module(module)
    return module


class ThePage(unittest.TestCase):
    def setUp(self):
        self.manual = script()
        self.manual.parts = lambda _: {"events": manual_page.events_part()}

    def checked(self, page):
        """How many parts of a page fail, and what is printed."""
        with patch.object(Path, "read_text", lambda *_, **__: page), redirect_stdout(io.StringIO()) as out:
            _, failed = self.manual.checked("")
        return failed, out.getvalue()

    def test_a_row_that_is_edited_is_found(self):
        page = manual_page.PAGE.read_text(encoding="utf-8")
        self.assertEqual(self.checked(page)[0], 0)
        failed, out = self.checked(page.replace("| FINAL | 11 |", "| FINAL | 12 |"))
        self.assertEqual(failed, 1)
        self.assertIn("events is not what is generated", out)

    def test_a_page_without_the_place_is_found(self):
        with self.assertRaisesRegex(manual_page.NotMade, "0 places for events"):
            self.checked("no marker")

    def test_flags_are_read_off_a_program_s_lines(self):
        part = manual_page.flags_part("second/compare.py --answer -")
        self.assertEqual(len(part.splitlines()), 2 + 110)
        self.assertIn("| 1 working | isNeu, RequestFromNeu, Engine_Request_SyncSpeed |", part)
        for wrong in ("true", "no/such/program", "bash -c 'second/compare.py --answer - | sed s/manual/bad/'"):
            with self.assertRaises(manual_page.NotMade):
                manual_page.flags_part(wrong)


class TheText(unittest.TestCase):
    @classmethod
    def setUpClass(cls):
        cls.texts, cls.manual = m9_text.files(), script()

    def held(self, texts):
        """How many facts are not as in the manual, and what is printed."""
        with redirect_stdout(io.StringIO()) as out:
            failed = sum(failed for _, failed in self.manual.held(texts))
        return failed, out.getvalue()

    def test_it_is_the_manual_s(self):
        self.assertEqual(self.held(self.texts)[0], 0)

    def test_edits_are_found(self):
        for file, old, new, said in EDITS:
            with self.subTest(file=file, new=new):
                self.assertIn(old, self.texts[file])
                failed, out = self.held({**self.texts, file: self.texts[file].replace(old, new, 1)})
                self.assertGreater(failed, 0)
                self.assertIn(said, out)
