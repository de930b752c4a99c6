"""Each fault that is planted in a command is found by the case that is named for it, and by none of another command."""
import pytest

from planted_faults import COMMANDS, FAULTS, PLANTED, Planter

pytestmark = pytest.mark.slow(seconds=1)


@pytest.fixture(scope="module")
def planter():
    with Planter() as it:
        yield it


@pytest.mark.parametrize("command, fault", PLANTED, ids=[f"{command}, {fault}" for command, fault in PLANTED])
def test_fault_is_found(planter, program, tmp_path, command, fault):
    found = planter.found_by(program, tmp_path, command, fault)
    assert f"{FAULTS[fault][0]}[{command}]" in found
    assert [name for name in found if not name.endswith(f"[{command}]")] == []


@pytest.mark.parametrize("command", COMMANDS)
def test_wrapper_without_a_fault_is_passed(planter, program, tmp_path, command):
    assert planter.found_by(program, tmp_path, command, "no fault") == []
