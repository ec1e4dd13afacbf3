"""Libraries in C that are preloaded into a program, made by the kit's compiler or by `cc`."""
import os
import pathlib
import shutil
import subprocess

ALONE = ('-O2', '-shared', '-fPIC', '-nostdlib')


def kit_compiler() -> pathlib.Path | None:
    """The compiler of the kit that `rt` belongs to, which has no headers."""
    rt = shutil.which('rt')
    clang = rt and pathlib.Path(rt).resolve().parent.parent / 'toolchain' / 'bin' / 'clang'
    return clang if clang and clang.exists() else None


def library(folder: str | os.PathLike[str], source: pathlib.Path) -> str | None:
    """Compiles a C file that includes nothing into a folder, and returns the path of the library;
    None where there is no compiler."""
    kit, made = kit_compiler(), os.path.join(folder, source.stem)
    compiler = [str(kit), '-fuse-ld=lld'] if kit else [shutil.which('cc')]
    if compiler[0] is None:
        return None
    subprocess.run([*compiler, *ALONE, '-o', made, source], check=True)
    return made
