"""macmem from Python: a library that was built as docs/c.md says, by ctypes.

    library = Library("build/libmacmem.so")
    zone = library.zone(1024)
    code, text = zone.new_handle(100)
"""
import ctypes
from ctypes import POINTER, Structure, byref, c_bool, c_char_p, c_int16, c_int32, c_int64, c_size_t, c_uint8, c_uint32, c_void_p

HOST_MEMORY, FILE_FAULT = 65536, 65537


class Zone_(Structure):
    """What C keeps of a zone."""

    _fields_ = [("at", c_void_p)]


class Fault(Structure):
    """What is wrong with the bytes of a file."""

    _fields_ = [("line", c_size_t), ("code", c_int16), ("second", c_bool)]


class Row(Structure):
    """A resource of a fork."""

    _fields_ = [("size", c_size_t), ("kind", c_uint32), ("id", c_int16), ("attrs", c_uint8), ("has_name", c_bool)]


# The calls of the Memory Manager: the arguments after the zone, and the type of what a call gives.
HANDLE, SIZE, BYTES = [c_size_t], [c_uint32], [c_char_p, c_size_t]
CALLS = {
    "new_handle": (SIZE, c_size_t),
    "new_empty_handle": ([], c_size_t),
    "dispose_handle": (HANDLE, None),
    "get_handle_size": (HANDLE, c_uint32),
    "handle_zone": (HANDLE, c_uint32),
    "set_handle_size": (HANDLE + SIZE, None),
    "reallocate_handle": (HANDLE + SIZE, None),
    "empty_handle": (HANDLE, None),
    "hand_to_hand": (HANDLE, c_size_t),
    "hand_and_hand": (HANDLE + HANDLE, None),
    "ptr_to_hand": (BYTES, c_size_t),
    "ptr_and_hand": (HANDLE + BYTES, None),
    "ptr_to_x_hand": (HANDLE + BYTES, None),
    "recover_handle": (SIZE, c_size_t),
    "block_move": (HANDLE + SIZE + HANDLE + SIZE + SIZE, None),
    "munger": (HANDLE + SIZE + BYTES + BYTES, c_int64),
    "munger_count": (HANDLE + SIZE + SIZE + BYTES, c_int64),
    "munger_nil": (HANDLE + SIZE + BYTES, c_int64),
    "h_lock": (HANDLE, None),
    "h_unlock": (HANDLE, None),
    "h_purge": (HANDLE, None),
    "h_no_purge": (HANDLE, None),
    "h_get_state": (HANDLE, c_uint8),
    "h_set_state": (HANDLE + [c_uint8], None),
    "move_h_hi": (HANDLE, None),
    "h_lock_hi": (HANDLE, None),
    "new_ptr": (SIZE, c_size_t),
    "dispose_ptr": (HANDLE, None),
    "get_ptr_size": (HANDLE, c_uint32),
    "ptr_zone": (HANDLE, c_uint32),
    "set_ptr_size": (HANDLE + SIZE, None),
    "purge_mem": (SIZE, None),
    "max_mem": ([], c_uint32),
    "reserve_mem": (SIZE, None),
    "more_masters": ([], None),
    "mem_error": ([], None),
    "put": (HANDLE + SIZE + BYTES, None),
    "put_ptr": (HANDLE + SIZE + BYTES, None),
    "where": (HANDLE, c_uint32),
}
NUMBERS = {"free_mem": [], "max_block": [], "compact_mem": SIZE}

# What gives bytes of files and scripts: the arguments before the bytes that are given. A key is the type and the ID of a resource.
KEY, LINE, FLAG = [c_uint32, c_int16], [c_size_t], [c_bool]
TEXTS = {
    "fork_get": BYTES + KEY,
    "fork_set": BYTES + KEY + BYTES + FLAG,
    "fork_remove": BYTES + KEY + FLAG,
    "fork_rewrite": BYTES + FLAG,
    "fork_derez": BYTES + FLAG,
    "fork_rez": BYTES,
    "fork_info": BYTES,
    "fork_listing": BYTES,
    "fork_show": BYTES + KEY + FLAG,
    "fork_state": BYTES + KEY + BYTES + FLAG,
    "script_transcript": SIZE + BYTES,
    "script_list": SIZE + LINE + BYTES,
    "script_picture": SIZE + LINE + BYTES,
    "script_steps": SIZE + LINE + LINE + BYTES,
    "script_words": SIZE + LINE + LINE + BYTES,
}
# The same of what finds no fault in a file.
WORDS = ("fork_check", "script_faults", "source_faults")


def counted(words):
    """Arguments, where each of bytes is followed by its length."""
    return [it for word in words for it in ((word, len(word)) if isinstance(word, bytes) else (word,))]


class Library:
    """A library that was built; its functions are those of include/macmem.h."""

    def __init__(self, path):
        self.c = ctypes.CDLL(path)
        zone = POINTER(Zone_)
        for name, (arguments, gives) in CALLS.items():
            getattr(self.c, f"macmem_{name}").argtypes = [zone, *arguments, *([POINTER(gives)] if gives else [])]
        for name, arguments in NUMBERS.items():
            function = getattr(self.c, f"macmem_{name}")
            function.argtypes, function.restype = [zone, *arguments], c_uint32
        self.c.macmem_zone_new.argtypes = [c_uint32, zone]
        self.c.macmem_zone_free.argtypes, self.c.macmem_zone_free.restype = [zone], None
        self.c.macmem_purge_space.argtypes = [zone, POINTER(c_uint32), POINTER(c_uint32)]
        self.c.macmem_purge_space.restype = None
        for name in ("show", "show_ptr"):
            getattr(self.c, f"macmem_{name}").argtypes = [zone, c_size_t, c_char_p, c_size_t, POINTER(c_size_t)]
        self.c.macmem_image.argtypes, self.c.macmem_image.restype = [zone, c_char_p, c_size_t], c_size_t
        out = [c_char_p, c_size_t, POINTER(c_size_t)]
        for name, arguments in TEXTS.items():
            getattr(self.c, f"macmem_{name}").argtypes = [*arguments, *out, POINTER(Fault)]
        for name in WORDS:
            getattr(self.c, f"macmem_{name}").argtypes = [*BYTES, *out]
        self.c.macmem_fork_diff.argtypes = [*BYTES, *BYTES, *out, POINTER(c_bool), POINTER(Fault)]
        self.c.macmem_fork_rows.argtypes = [*BYTES, POINTER(Row), c_size_t, POINTER(c_size_t), POINTER(Fault)]

    def zone(self, size):
        """A fresh zone."""
        return Zone(self.c, size)

    def text(self, name, *words, room=65536):
        """What a function makes that gives bytes as snprintf does, or the fault; an argument of bytes goes with its length."""
        out, length, fault = ctypes.create_string_buffer(room), c_size_t(), Fault()
        code = getattr(self.c, f"macmem_{name}")(*counted(words), out, room, byref(length), byref(fault))
        if code == 0 and length.value > room:
            return self.text(name, *words, room=length.value)
        return code, out.raw[: length.value] if code == 0 else fault

    def words(self, name, file, room=65536):
        """What is said of a file or a text in which nothing is at fault."""
        out, length = ctypes.create_string_buffer(room), c_size_t()
        code = getattr(self.c, f"macmem_{name}")(file, len(file), out, room, byref(length))
        return (code, out.raw[: length.value]) if length.value <= room else self.words(name, file, length.value)

    def diff(self, first, second, room=65536):
        """How two forks differ and whether they do, or the fault."""
        out, length, differs, fault = ctypes.create_string_buffer(room), c_size_t(), c_bool(), Fault()
        code = self.c.macmem_fork_diff(*counted((first, second)), out, room, byref(length), byref(differs), byref(fault))
        if code == 0 and length.value > room:
            return self.diff(first, second, length.value)
        return code, (out.raw[: length.value], differs.value) if code == 0 else fault

    def transcript(self, size, script):
        """The transcript of a script, or its fault."""
        return self.text("script_transcript", size, script)

    def rows(self, file, room=256):
        """The resources of a fork, or its fault."""
        rows, length, fault = (Row * room)(), c_size_t(), Fault()
        code = self.c.macmem_fork_rows(file, len(file), rows, room, byref(length), byref(fault))
        if code == 0 and length.value > room:
            return self.rows(file, length.value)
        return code, list(rows[: length.value]) if code == 0 else fault

    def data(self, file, kind, number):
        """The stored data of a resource, or the fault."""
        return self.text("fork_get", file, kind, number)


class Zone:
    """A zone: a method for each call, which returns the code, or the code and what the call gives."""

    def __init__(self, c, size):
        self.c, self.kept, self.size = c, Zone_(), size
        code = c.macmem_zone_new(size, byref(self.kept))
        if code:
            raise MemoryError(code)

    def __getattr__(self, name):
        function = getattr(self.c, f"macmem_{name}")
        gives = CALLS[name][1] if name in CALLS else None

        def call(*words):
            if gives is None:
                return function(byref(self.kept), *words)
            given = gives()
            code = function(byref(self.kept), *words, byref(given))
            return code, given.value

        return call

    def purge_space(self):
        """The two numbers of PurgeSpace."""
        total, contiguous = c_uint32(), c_uint32()
        self.c.macmem_purge_space(byref(self.kept), byref(total), byref(contiguous))
        return total.value, contiguous.value

    def bytes_of(self, name, number, room=65536):
        """The code of Show or ShowPtr, and the bytes."""
        out, length = ctypes.create_string_buffer(room), c_size_t()
        code = getattr(self.c, f"macmem_{name}")(byref(self.kept), number, out, room, byref(length))
        return code, out.raw[: length.value]

    def image(self):
        """The bytes of the zone as they lie."""
        out = ctypes.create_string_buffer(self.size)
        length = self.c.macmem_image(byref(self.kept), out, self.size)
        return out.raw[:length]

    def free(self):
        """Gives the zone's memory back to the host."""
        self.c.macmem_zone_free(byref(self.kept))
