# Lines of trees of files in folders, for tools/cases/tree_rows.py: what is read and written there, and links.
from models.trees import KeptStore, Tree, pack, path_word, unpack


def written(rows, tree, path, data):
    rows.row(f'folder write {path_word(path)} x{data.hex()}', 'Ok(())')
    tree.files[path] = data


def beside(rows, tree):
    """What has one of the names beside a file stays, after Ok and after a refusal, and no file is left beside."""
    there = 'made/here/8/1'
    rows.row(f'link folder {there}/.2.png.part1')
    rows.row(f'link file {there}/.2.png.part')
    rows.row(f'link made nowhere {there}/.2.png.part2')
    written(rows, tree, '8/1/2.png', b'beside')
    tree.files['8/1/.2.png.part'] = b'1'
    tree.say()
    rows.row(f'link there {there}/.2.png.part1', 'true')
    rows.row(f'link is_link {there}/.2.png.part2', 'true')
    rows.row(f'link there {there}/nowhere', 'false')
    # a folder has the name that the file is to have
    rows.row(f'link folder {there}/3.png')
    rows.row(f'link file {there}/.3.png.part')
    rows.row('folder write t8/1/3.png x01', 'Err(Fault)')
    rows.row('folder write t8/1/3.png x01', 'Err(Fault)')
    tree.files['8/1/.3.png.part'] = b'1'
    tree.say()
    # all names are taken but one, and then all
    for number in ('', *range(1, 99)):
        rows.row(f'link file {there}/.4.png.part{number}')
        tree.files[f'8/1/.4.png.part{number}'] = b'1'
    written(rows, tree, '8/1/4.png', b'last name')
    rows.row(f'link file {there}/.4.png.part99')
    tree.files['8/1/.4.png.part99'] = b'1'
    rows.row('folder write t8/1/4.png x01', 'Err(Fault)')
    tree.say()


def roots(rows):
    """A root that is missing, and one that is a file."""
    rows.row('folder open made/here')
    rows.row('folder all', 'Fault')
    KeptStore(rows)
    rows.row('folder pack xyz', 'Err(TreeFault)')
    rows.row('set tables')
    rows.row('link file plain')
    rows.row('folder open plain')
    rows.row('folder all', 'Fault')
    rows.row('folder write ta x01', 'Err(Fault)')


def files(rows, tree):
    """Files, in folders that are made, one in place of another."""
    written(rows, tree, '3/4/5.png', b'hello')
    tree.say()
    written(rows, tree, '3/4/5.png', b'again')
    written(rows, tree, '10/0/0.png', b'')
    written(rows, tree, '9/0/0.png', bytes(range(256)) * 40)
    written(rows, tree, 'readme', b'no tile')
    written(rows, tree, '3/4.png', b'no tile')
    written(rows, tree, '\u00e9t\u00e9/a b', b'1')
    tree.say()
    for root in ('made/here/', './made/here', 'made//here'):
        rows.row(f'folder open {root}')
        tree.say()


def refused_paths(rows, tree):
    """Nothing outside the root, and no name that stands for a folder."""
    for path in ('', '/', '../a', 'a/../b', './a', 'a//b', 'a/', '/a', '..', '.', '3', '3/4', 'readme/a', '3/4/5.png/6'):
        rows.row(f'folder write {path_word(path)} x01', 'Err(Fault)')
    tree.say()


def links(rows, tree):
    """Links to files are read, those to folders aren't followed, and nothing is written through them."""
    rows.row('link folder other/folder')
    rows.row('link file other/folder/file')
    rows.row('link made ../../other/folder/file made/here/to_file')
    rows.row('link made ../../other/folder made/here/to_folder')
    rows.row('link made .. made/here/up')
    rows.row('link made nowhere made/here/to_nothing')
    rows.row('link made to_itself made/here/to_itself')
    tree.files['to_file'] = b'1'
    tree.say()
    for path in ('to_folder/x', 'up/x', 'to_nothing/x', 'to_itself/x'):
        rows.row(f'folder write {path_word(path)} x01', 'Err(Fault)')
    rows.row('link there other/folder/x', 'false')
    rows.row('link there made/x', 'false')
    # a link is replaced, and what it leads to stays
    written(rows, tree, 'to_file', b'own')
    rows.row('link is_link made/here/to_file', 'false')
    rows.row('link made ../../other/folder/file made/here/.to_nothing.part')
    written(rows, tree, 'to_nothing', b'own')
    rows.row('link is_link made/here/.to_nothing.part', 'true')
    tree.files['.to_nothing.part'] = b'1'
    tree.say()
    rows.row('folder open other')
    Tree(rows, {'folder/file': b'1'}, 'folder').say()


def write(rows):
    roots(rows)
    rows.row('folder open made/here')
    tree = Tree(rows, {}, 'folder')
    for cases in (files, refused_paths, links):
        cases(rows, tree)
    rows.row('folder open made/here')
    beside(rows, tree)
    # packed, and unpacked into another folder
    rows.row('folder open made/here')
    store = KeptStore(rows)
    pack(rows, tree, store, 'xyz')
    rows.row('folder open unpacked')
    unpack(rows, Tree(rows, {}, 'folder'), store, 'tms')
    rows.row('link there unpacked/3/4/2.png', 'true')
    # the folder in which the program runs
    rows.row('folder open -')
    rows.row('folder write t3/4/5.png x09', 'Ok(())')
    rows.row('link there 3/4/5.png', 'true')
    rows.row('folder write t3/4 x09', 'Err(Fault)')
