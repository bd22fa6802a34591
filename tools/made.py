"""Files that a script makes and that are kept: written, or only compared."""
import sys


def settle(script, folder, files):
    """Writes the files into the folder; with --check on the command line, fails where one there is another or is missing."""
    if "--check" not in sys.argv[1:]:
        for name, content in files.items():
            (folder / name).parent.mkdir(parents=True, exist_ok=True)
            (folder / name).write_bytes(content)
        print(f"{script}: {len(files)} files written into {folder.name}/")
        return
    if not files:
        sys.exit(f"{script}: it makes no file")
    other = [n for n, content in files.items() if not (folder / n).is_file() or (folder / n).read_bytes() != content]
    if other:
        sys.exit(f"{script}: not what the script makes: {', '.join(other)} in {folder}; run tools/{script}")
    print(f"{script}: {len(files)} files in {folder.name}/ are what the script makes")
