"""The picture of a script, by its file and by what it put."""
from drawing.notes import events_of, notes_of
from drawing.spacetime import SpaceTime
from drawing.story import Misfit, Story


def picture_of(script, output, lines=None, form=1):
    """`lines` are the first and the last line of the script that are drawn; `form` is the format of the image that stood there."""
    events = events_of(script.read_text())
    story = Story(events, notes_of(output.read_text(), events), form, lines).play()
    if not story.rows:
        raise Misfit("no event of these lines has a note")
    over = " over a mailbox" if story.mail else ""
    return SpaceTime(f"Script {script.name}{over}", story, f"What each host of the script {script.name} did, from the top down.").draw()
