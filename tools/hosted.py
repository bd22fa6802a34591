"""The module of crates/host_c, whose functions C calls, as LLVM's text: what `rt lib` compiles of it once it is proved."""
import caught

HOST = "host_c"


def proved(room):
    """The module as rt hands it to the compiler, nothing of it optimized yet."""
    text = room / "module.ll"
    caught.compiled(["-S", "-emit-llvm", "-O0", "-Xclang", "-disable-llvm-passes"], caught.module(caught.library(HOST), HOST, room), text)
    return text.read_text()
