"""chips: the chips on a 1-Wire bus that can hold a sheet, and what stands in them."""
from . import owserver, refusals
from .image import Image, read_sheet
from .looks import shown
from .owserver import FAMILIES, Owserver
from .trouble import ACCEPTED, REFUSED, UNREAD, Refusal, Trouble


def run(_):
    server = Owserver(owserver.PLACE)
    names = [name for name in server.chips() if name[:2] in FAMILIES]
    if not names:
        print(f"no chip that can hold a sheet at {server.where()}")
    status = ACCEPTED
    for name in names:
        said, one = line_of(server, name)
        print(f"{name}  {FAMILIES[name[:2]][0]}  kind {FAMILIES[name[:2]][1]}  {said}")
        status = max(status, one)
    return status


def line_of(server, name):
    try:
        sheet = read_sheet(Image(server.chip(name).read()))
        return f"accepted, serial {shown(sheet, 5)}", ACCEPTED
    except Refusal as refusal:
        return refusals.headline(refusal), REFUSED
    except Trouble as trouble:
        return str(trouble).partition(": ")[2] or str(trouble), UNREAD
