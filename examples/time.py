import ctypes as c

class Answer(c.Structure):
    fields = "refusal record loop_arcs missed_setups missed_holds"
    _fields_ = [("gain", c.c_int64)] + [(name, c.c_uint32) for name in fields.split()]

timing = c.CDLL("libneelukudam.so.1").neelukudam_timing
timing.restype = Answer
image = open("circuits/p1.image", "rb").read()
results, arcs = (c.c_int64 * 3072)(), (c.c_uint32 * 512)()
a = timing(image, c.c_size_t(len(image)), results, c.c_size_t(3072), arcs, c.c_size_t(512))
print(f"refusal {a.refusal}, loop of {a.loop_arcs} arcs, missed {a.missed_setups} setups and {a.missed_holds} holds")
print("setup slack of 0:", results[5])
