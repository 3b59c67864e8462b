"""Makes the wheel that pip installs, of this checkout alone: the package, and the shared library where bin/build made it. It needs nothing
that would have to be fetched."""
import base64
import hashlib
import pathlib
import zipfile

HERE = pathlib.Path(__file__).resolve().parent
NAME, VERSION = 'plavotesk', '0.1.0'
TAG = 'py3-none-any'


def _files():
    """The files of the wheel: where each goes, and what it holds."""
    for path in sorted((HERE / NAME).glob('*')):
        if path.suffix == '.py' or path.name == 'py.typed':
            yield f'{NAME}/{path.name}', path.read_bytes()
    library = HERE.parent.parent / 'target' / 'shared' / 'libplavotesk.so'
    if not library.exists():
        raise SystemExit(f'{library} is not there: run bin/build first')
    yield f'{NAME}/libplavotesk.so', library.read_bytes()
    about = f'{NAME}-{VERSION}.dist-info'
    yield f'{about}/METADATA', f'Metadata-Version: 2.1\nName: {NAME}\nVersion: {VERSION}\nRequires-Python: >=3.9\n'.encode()
    yield f'{about}/WHEEL', f'Wheel-Version: 1.0\nGenerator: {NAME}\nRoot-Is-Purelib: false\nTag: {TAG}\n'.encode()


def build_wheel(folder, config_settings=None, metadata_directory=None):
    """Puts the wheel into a folder, and answers its name."""
    name, record = f'{NAME}-{VERSION}-{TAG}.whl', []
    with zipfile.ZipFile(pathlib.Path(folder) / name, 'w', zipfile.ZIP_DEFLATED) as wheel:
        for path, text in _files():
            digest = base64.urlsafe_b64encode(hashlib.sha256(text).digest()).rstrip(b'=').decode()
            record.append(f'{path},sha256={digest},{len(text)}')
            wheel.writestr(path, text)
        record.append(f'{NAME}-{VERSION}.dist-info/RECORD,,')
        wheel.writestr(f'{NAME}-{VERSION}.dist-info/RECORD', '\n'.join(record) + '\n')
    return name


def build_sdist(folder, config_settings=None):
    """There is none: the package is installed from a checkout."""
    raise NotImplementedError('install plavotesk from a checkout')
