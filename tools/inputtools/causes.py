"""What kept an event from a client: the first cause that holds, in words.

The causes are looked for in the order of an event's way: its frame must have been offered to the client (it
was open and not revoked, nobody else held the grab), left by the device's filters, admitted by its masks,
kept in its ring (no loss, no discard), and read.
"""

from typing import Callable, Dict, List, Optional, Sequence

from inputtools.belief import Origin, Thing
from inputtools.devicestate import DESCRIPTION, DeviceState
from inputtools.divergences import Cause, Point, Walk, Why
from inputtools.record import ROLES
from inputtools.report import Call, Device, cut_text


class Causes:
    """The causes of one device: its state, what its history says of the clients, and whose the clients
    are."""

    def __init__(self, state: DeviceState, device: Device,
                 losses: Callable[[str], List[Optional[int]]]) -> None:
        self.state, self.handles, self.at, self.unread_losses = state, state.handles, state.at, losses
        self.openers: Dict[int, str] = {}
        self.cut = [part for part in device.all_parts() if part.end.is_full]
        for part in device.parts + device.joysticks:
            opened = (call for call in part.all_of(Call) if call.reply.name == "opened")
            self.openers.update({call.reply.number: part.name for call in opened})

    def cause_of(self, walk: Walk, thing: Thing, point: Point) -> Why:
        """Since which place a belief is not the device's state, None for the start, and why."""
        why = self.found(walk, thing, point)
        roles = UNDONE.get(why.cause.kind, ())
        cut = next((part for part in self.cut if part.role in roles), None)
        return Why(why.since, Cause("cut", f"the play was cut: {cut_text(cut)}")) if cut else why

    def found(self, walk: Walk, thing: Thing, point: Point) -> Why:
        """The same, whether or not the play was cut."""
        own = walk.own_cause(thing, point)
        if own:
            return own
        value, origin = walk.belief.value(thing), walk.belief.origin(thing)
        if point.kind == "end" and walk.seen(thing, self.state.value(thing, point.frame)) == value:
            return self.in_open_frame(thing, origin)
        described = self.description_behind(thing, self.state.last_change(thing, point.frame))
        if described is not None and (origin is None or origin.place <= self.state.frame_places[point.frame]):
            return Why(described, self.of_description(described))
        frame = self.state.other_since(thing, point.frame, value, lambda present: walk.seen(thing, present))
        place = self.state.place_of(frame)
        if origin is not None and (place is None or origin.place > place):
            later = self.of_later_belief(thing, origin, point)
            if later:
                return Why(origin.place, later)
        return Why(place, self.of_event(walk, thing, frame, point))

    def in_open_frame(self, thing: Thing, origin: Optional[Origin]) -> Why:
        """The device's value changed after the last frame: the events wait for a report."""
        ended = self.state.frame_places[-1] if self.state.frames else -1
        described = self.last_description(thing, len(self.state.history))
        if described is not None and described > ended:
            return Why(described, self.of_description(described))
        if origin is not None and origin.place > ended:
            ended = origin.place
        behind = (place for place in self.state.places if place > ended)
        setting = (place for place in behind if self.state.history[place].words[-3:-1] == thing.event)
        return Why(next(setting, None), Cause("open-frame", "its frame has not ended: no report followed"))

    def last_description(self, thing: Thing, end: int) -> Optional[int]:
        """The place before `end` at which the axis was described anew last, or None."""
        if thing.code not in self.state.described:
            return None
        steps = ((place, self.state.history[place]) for place in reversed(self.state.places) if place < end)
        described = (place for place, step in steps if step.name == DESCRIPTION
                     and thing == Thing("EV_ABS", step.code))
        return next(described, None)

    def of_description(self, place: int) -> Cause:
        client = self.state.history[place].client
        who = self.openers.get(client, str(client))
        where = self.at.text(place)
        return Cause("described", f"{who} described the axis anew at {where}, which no event tells")

    def description_behind(self, thing: Thing, frame: int) -> Optional[int]:
        """The place of the description that gave the axis its value at the end of a frame which has no event
        with that value, or None."""
        if frame < 0:
            return None
        found = self.state.frames[frame]
        values = [event.value for event in found.events if (event.kind, event.code) == thing.event]
        is_told = bool(values) and values[-1] == self.state.value(thing, frame)
        return None if is_told else self.last_description(thing, found.place)

    def of_later_belief(self, thing: Thing, origin: Origin, point: Point) -> Optional[Cause]:
        """The cause where the belief was told later than the device took its value."""
        where = self.at.text(origin.place)
        is_behind = point.place is not None and origin.place > point.place
        if origin.is_answer and point.kind == "report" and is_behind:
            return Cause("asked-later", f"it asked at {where}, behind this report's frame")
        if not origin.is_answer and thing.slot is not None:
            text = f"it took the value of {where} for this slot, which is not the device's current one there"
            return Cause("slot", text)
        return None

    def of_event(self, walk: Walk, thing: Thing, frame: int, point: Point) -> Cause:
        """What kept the event of a frame from the client."""
        if frame < 0:
            return Cause("not-asked", "it did not ask for the state at its start")
        place = self.state.frame_places[frame]
        taken_for = walk.slot_of_taken.get((place, thing.code))
        if thing.slot is not None and taken_for not in (None, thing.slot):
            text = f"it took the value for slot {taken_for}, since that is the current one for it"
            return Cause("slot", text)
        before = [client.number for client in walk.clients if client.opened < place]
        if not before:
            return self.of_no_client(walk)
        kept = self.of_offer(before[-1], place) or self.of_filter(self.state.eater_of(thing, frame))
        kept = kept or self.of_mask(before[-1], place, thing)
        return kept or self.of_queue(walk, before[-1], place, point)

    def of_no_client(self, walk: Walk) -> Cause:
        if not walk.clients:
            return Cause("never-opened", "it has not opened the device")
        opened = self.at.text(walk.clients[0].opened)
        return Cause("opened-later", f"it opened the device later, at {opened}, and has not asked since")

    def of_offer(self, client: int, place: int) -> Optional[Cause]:
        """Why the client was not offered the frame of a place, or None."""
        handles = self.handles
        if handles.closes.get(client, place) < place:
            return Cause("closed", f"it closed the device at {self.at.text(handles.closes[client])}")
        if handles.revokes.get(client, place) < place:
            return Cause("revoked", f"it was revoked at {self.at.text(handles.revokes[client])}")
        grab = handles.grab_of_another(client, place)
        if grab is None:
            return None
        holder = self.openers.get(grab.client, str(grab.client))
        return Cause("grab", f"grab of {holder} {self.at.span(grab.begin, grab.end)}")

    def of_filter(self, number: Optional[int]) -> Optional[Cause]:
        """The filter of a number, which ate the event, or None."""
        if number is None:
            return None
        text = self.state.description.filters[number - 1].text
        return Cause("filter", f"eaten by filter {number} ({text})")

    def of_mask(self, client: int, place: int, thing: Thing) -> Optional[Cause]:
        """Which of its masks left the event out, or None."""
        mask = self.handles.mask_at(client, place, *thing.event)
        return mask and Cause("mask", f"its mask of {mask.kind} {self.at.span(mask.begin, mask.end)}")

    def of_queue(self, walk: Walk, client: int, place: int, point: Point) -> Cause:
        """What became of an event that the client was offered."""
        gone = [(lost, self.of_loss(client, lost)) for lost in walk.losses if lost >= place]
        gone += [(discard, self.of_discard(discard)) for discard in walk.discards if discard > place]
        changes = self.handles.clock_changes[client]
        gone += [(changed, self.of_loss(client, changed)) for changed in changes if changed > place]
        gone += [(new.opened, self.of_new_client(new.opened)) for new in walk.clients if new.opened > place]
        if gone:
            return min(gone, key=lambda each: each[0])[1]
        if point.kind != "end":
            return Cause("unknown", "nothing that is known here")
        lost = [lost for lost in self.unread_losses(walk.part.name) if lost is None or lost >= place]
        return self.of_loss(client, lost[0], ", of which it has not read yet") if lost else NOT_READ

    def of_loss(self, client: int, place: Optional[int], more: str = "") -> Cause:
        """A loss at a place, or at one that is not told."""
        if place is None:
            return Cause("loss", f"loss (its ring was full){more}")
        why = "it changed its clock" if place in self.handles.clock_changes[client] else "its ring was full"
        return Cause("loss", f"loss at {self.at.text(place)} (SYN_DROPPED: {why}){more}")

    def of_discard(self, place: int) -> Cause:
        return Cause("discard", f"removed unread by its discard at {self.at.text(place)}")

    def of_new_client(self, place: int) -> Cause:
        where = self.at.text(place)
        return Cause("opened-anew", f"it opened the device anew at {where}, and left its events unread")


NOT_READ = Cause("not-read", "not read yet")
# What might have come yet where the play had gone on, by the roles of those who stopped.
UNDONE: Dict[str, Sequence[str]] = {"not-read": ROLES, "startup": ROLES, "open-frame": ("source",)}
