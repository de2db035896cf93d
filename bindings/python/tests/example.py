"""Tokens, a tree, a refused commit, an accepted one and a renaming."""
from tevondimby import Document, Error, Refused, check, run

with Document("fn twice(a: u32) -> u32 { a * 2 }") as doc:
    print([token.name for token in doc.tokens()][:6])
    for element in list(doc.tree())[:4]:
        print("  " * element.depth + f"{element.name}@{element.start}..{element.end}")
    try:
        doc.commit([{"op": "replace", "at": ["PATH_EXPR", 26, 27], "with": ["expr", "1 + 2"]}])
    except Refused as refused:
        print("refused:", refused)
    print(doc.commit([{"op": "replace", "at": ["PATH_EXPR", 26, 27], "with": ["expr", "(1 + 2)"]}]), doc.text)
    doc.rename("twice", "double")
    try:
        doc.edit(5, 1, "")
    except Error as error:
        print(error)
try:
    doc.text
except Error as error:
    print(error)
print(check("fn f() { 1 + ; }"), run(b'{"edition":"2021","text":"fn f() {}","commands":[{"do":"errors"}]}'))
