"""The status words have the fields of docs/PROTOCOL.md, section 3."""
import unittest

from rudderraisin import BattleStatus, Status


class Words(unittest.TestCase):
    def fields(self, word: type, names: str) -> None:
        """Each bit belongs to the field that the name says, as its next bit from below; a dot is no field's."""
        for bit, name in enumerate(names.split()):
            place = names.split()[:bit].count(name)
            with self.subTest(bit=bit):
                known = {it: int(getattr(word(1 << bit), it)) for it in {*names.split()} - {"."}}
                wanted = dict.fromkeys(known, 0)
                if name != ".":
                    wanted[name] = 1 << place
                self.assertEqual(known, wanted)

    def test_status(self) -> None:
        self.fields(Status, "in_game away rank rank rank moderator bot" + " ." * 25)

    def test_battle_status(self) -> None:
        self.fields(BattleStatus, ". ready" + " team" * 4 + " ally" * 4 + " player" + " handicap" * 7 + " ." * 4
                    + " sync" * 2 + " side" * 4 + " ." * 4)

    def test_of(self) -> None:
        self.assertEqual([Status.of(), Status.of(in_game=True), Status.of(away=True)], [0, 1, 2])
        self.assertEqual(BattleStatus.of(), 0)
        own = {"ready": True, "team": 5, "ally": 10, "player": True, "sync": 2, "side": 9}
        it = BattleStatus.of(**own)
        self.assertEqual({name: getattr(it, name) for name in own}, own)
        self.assertEqual(it.handicap, 0)
        for fault in ({"team": 16}, {"ally": -1}, {"sync": 4}, {"side": 16}):
            with self.subTest(fault), self.assertRaises(ValueError):
                BattleStatus.of(**fault)


if __name__ == "__main__":
    unittest.main()
