"""The kernel of an image in the model of model.py: at a call site the form says what is dispatched, and what it can't say is a trap; so is
another status than the known one. Where none is noted, a known status is no trap."""
from lib.image import ANY, GENERAL, NEVER, NOBODY, STAY
from lib.kernel import Kernel
from lib.states import KEEP, LEFT, STATUSES, Live, Routine


class Trap(Exception):
    """The image has no step here."""


class ImageKernel(Kernel):
    """The kernel of what an image holds."""

    def __init__(self, stored):
        super().__init__(stored.app)
        self.stored = stored

    def dispatched(self, effect, block, ran):
        form = self.stored.forms.get(block)
        if form is None:
            return super().dispatched(effect, block, ran)
        is_other = effect.status is not None and self.stored.known[block] not in (ANY, STATUSES.index(effect.status))
        if form == NEVER or is_other:
            raise Trap
        return super().dispatched(effect, block, ran) if form == GENERAL else self.formed(effect, form, ran)

    def formed(self, effect, form, ran):
        """What a form that doesn't look gives: nothing is dispatched, or always this task, or none."""
        has_left = effect.ask == LEFT
        if form == STAY:
            if has_left and ran is not None:
                raise Trap
            return self.kept(effect.state), KEEP, []
        if isinstance(effect.state.processor, Routine):  # another routine goes on
            raise Trap
        task = None if form[1] == NOBODY else form[1]
        if not (has_left if task is None else isinstance(effect.state.tasks[task], Live)):
            raise Trap
        return self.switched(effect.state, task, ran)
