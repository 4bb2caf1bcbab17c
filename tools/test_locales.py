#!/usr/bin/env python3
"""Tries tools/locales on a small folder of data that is made here, so that no package is needed."""
import json
import os
import subprocess
import sys
import tempfile
import unittest
from unittest import mock

import cldr

LOCALES = os.path.join(os.path.dirname(os.path.abspath(__file__)), "locales")

# The values of a locale, as the elements of its file. Every other locale inherits those of root.
ROOT = """
<layout><orientation><characterOrder>left-to-right</characterOrder></orientation></layout>
<numbers>
 <defaultNumberingSystem>latn</defaultNumberingSystem>
 <minimumGroupingDigits>1</minimumGroupingDigits>
 <symbols numberSystem="latn">
  <decimal>.</decimal><group>,</group><plusSign>+</plusSign><minusSign>-</minusSign>
 </symbols>
 <decimalFormats numberSystem="latn">
  <decimalFormatLength type="long"><decimalFormat><pattern>0 thousand</pattern></decimalFormat>
  </decimalFormatLength>
  <decimalFormatLength><decimalFormat><pattern>#,##0.###</pattern></decimalFormat>
  </decimalFormatLength>
 </decimalFormats>
</numbers>
"""

PARENTS = """<supplementalData>
<parentLocales><parentLocale parent="root" locales="sr_Latn"/>
 <parentLocale parent="pt_PT" locales="pt_AO"/></parentLocales>
<parentLocales component="collations"><parentLocale parent="sr" locales="pt"/></parentLocales>
</supplementalData>"""

PLURALS = """<supplementalData><plurals>
<pluralRules locales="root"><pluralRule count="other"> @integer 0</pluralRule></pluralRules>
<pluralRules locales="pt"><pluralRule count="one">i = 0..1 @integer 0, 1</pluralRule>
 <pluralRule count="other"> @integer 2</pluralRule></pluralRules>
<pluralRules locales="pt_PT sr"><pluralRule count="one">i = 1
  and v = 0 @integer 1</pluralRule><pluralRule count="other"> @integer 2</pluralRule></pluralRules>
</plurals></supplementalData>"""


def symbols(text):
    """The elements of symbols of Latin digits."""
    return f'<numbers><symbols numberSystem="latn">{text}</symbols></numbers>'


def pattern(text):
    """The elements of a plain pattern of Latin digits."""
    plain = f"<decimalFormatLength><decimalFormat><pattern>{text}</pattern></decimalFormat>"
    formats = f'<decimalFormats numberSystem="latn">{plain}</decimalFormatLength></decimalFormats>'
    return f"<numbers>{formats}</numbers>"


class Locales(unittest.TestCase):
    """The command, over root, sr, sr_Latn, pt, pt_PT and pt_AO, and what a test adds."""

    def setUp(self):
        made = tempfile.TemporaryDirectory()
        self.addCleanup(made.cleanup)
        self.folder = made.name
        self.put("dtd/ldml.dtd", '<!ATTLIST version cldrVersion CDATA #FIXED "1" >')
        self.put("supplemental/supplementalData.xml", PARENTS)
        self.put("supplemental/plurals.xml", PLURALS)
        self.put("supplemental/ordinals.xml", PLURALS)
        self.locale("root", ROOT)
        self.locale("sr", symbols("<decimal>,</decimal>"))
        self.locale("sr_Latn", "")
        self.locale("pt", symbols("<decimal>,</decimal><group>.</group>"))
        self.locale("pt_PT", symbols("<group>'</group>"))
        self.locale("pt_AO", "")

    def put(self, path, text):
        """Writes a file of the folder."""
        path = os.path.join(self.folder, path)
        os.makedirs(os.path.dirname(path), exist_ok=True)
        with open(path, "w", encoding="utf-8") as file:
            file.write(text)

    def locale(self, name, text):
        """Writes the file of a locale."""
        self.put(f"main/{name}.xml", f"<ldml>{text}</ldml>")

    def run_locales(self, *words):
        """Runs the command on the folder."""
        command = [sys.executable, LOCALES, "--cldr", self.folder, *words]
        return subprocess.run(command, capture_output=True, text=True, check=False)

    def record(self, tag):
        """The record that the command writes for a tag."""
        return json.loads(self.run_locales(tag).stdout)["record"]

    def refuses(self, told, *words):
        """Sees that the command writes nothing but one line, which tells what is wrong."""
        done = self.run_locales(*words)
        self.assertEqual((done.returncode, done.stdout), (1, ""))
        self.assertRegex(done.stderr, f"^locales: [^\n]*{told}[^\n]*\n$")

    def test_root_is_und(self):
        root = dict(version=1, dir="ltr", decimal=".", group=",", minus="-", plus="+")
        root.update(primary=3, secondary=3, minGroup=1, plural="", ordinal="")
        line = {"op": "locale", "tag": "und", "record": root}
        self.assertEqual(json.loads(self.run_locales("und").stdout), line)

    def test_all_locales_in_the_order_of_their_tags(self):
        tags = [json.loads(line)["tag"] for line in self.run_locales().stdout.splitlines()]
        self.assertEqual(tags, ["pt", "pt-ao", "pt-pt", "sr", "sr-latn", "und"])

    def test_named_locales_in_the_order_of_the_words_and_each_once(self):
        lines = self.run_locales("SR_latn", "pt-AO", "sr-Latn").stdout.splitlines()
        self.assertEqual([json.loads(line)["tag"] for line in lines], ["sr-latn", "pt-ao"])

    def test_symbols_come_from_the_said_parent(self):
        self.assertEqual(self.record("pt-AO")["group"], "'")
        self.assertEqual(self.record("pt-AO")["decimal"], ",")
        self.assertEqual(self.record("sr-Latn")["decimal"], ".")

    def test_rules_come_from_a_parent_of_the_language(self):
        self.assertEqual(self.record("pt")["plural"], "one: i = 0..1")
        self.assertEqual(self.record("pt-AO")["plural"], "one: i = 1 and v = 0")
        self.assertEqual(self.record("sr-Latn")["plural"], "one: i = 1 and v = 0")

    def test_what_is_unconfirmed_or_inherited_is_passed_over(self):
        group = '<group draft="provisional">_</group><group draft="contributed">~</group>'
        self.locale("xx", symbols(f"<decimal>↑↑↑</decimal>{group}"))
        self.assertEqual(self.record("xx")["decimal"], ".")
        self.assertEqual(self.record("xx")["group"], "~")

    def test_grouping(self):
        for text, sizes in (("#,##,##0.###", (",", 3, 2)), ("0.######", ("", 3, 3))):
            self.locale("xx", pattern(text))
            record = self.record("xx")
            self.assertEqual((record["group"], record["primary"], record["secondary"]), sizes)

    def test_other_digits_are_told_once(self):
        digits = "<numbers><defaultNumberingSystem>arab</defaultNumberingSystem></numbers>"
        self.locale("xx", digits)
        self.locale("xx_YY", "")
        told = "locales: left at Latin digits: xx (arab), xx-yy (arab)\n"
        self.assertEqual(self.run_locales("xx", "pt", "xx-YY").stderr, told)

    def test_unknown_tags_are_refused(self):
        self.refuses("'qq', '../main/pt', 'a.nb'", "pt", "qq", "../main/pt", "a\nb")

    def test_broken_files_are_refused(self):
        self.put("main/sr.xml", "<ldml><numbers>")
        self.refuses("sr.xml: ", "pt", "sr")
        self.locale("xx", pattern("¤#,##0"))
        self.refuses("xx", "xx")
        self.locale("xx", symbols("<decimal></decimal>"))
        self.refuses("decimal", "xx")
        self.locale("xx", pattern("#,##########0"))
        self.refuses("primary", "xx")

    def test_parents_in_a_circle_are_refused(self):
        circle = PARENTS.replace('parent="root" locales="sr_Latn"', 'parent="sr_Latn" locales="sr"')
        self.put("supplemental/supplementalData.xml", circle)
        self.refuses("the parents of sr_Latn lead back to it", "sr-Latn")

    def test_broken_rules_are_refused(self):
        self.put("supplemental/ordinals.xml", PLURALS.replace("i = 0..1", "i is 1"))
        self.refuses("ordinals.xml: no plural rule: one: i is 1", "sr")
        self.put("supplemental/ordinals.xml", "<supplementalData/>")
        self.refuses("ordinals.xml: ", "sr")

    def test_a_missing_file_is_refused(self):
        os.remove(os.path.join(self.folder, "supplemental/plurals.xml"))
        self.refuses("plurals.xml: No such file", "pt")
        self.folder = os.path.join(self.folder, "nowhere")
        self.refuses("nowhere/main: No such file", "pt")

    def test_a_missing_package_is_named(self):
        nowhere = dict(USUAL_FOLDER="/nowhere", folders_of_package=lambda: [])
        with mock.patch.multiple(cldr, **nowhere):
            with self.assertRaisesRegex(cldr.CldrError, "Debian's package unicode-cldr-core"):
                cldr.installed_folder()


if __name__ == "__main__":
    unittest.main()
