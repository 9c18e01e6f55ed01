"""`make try`: the first look, unproved."""

import os

from harness import TOOLS, run, same


def test_a_first_look():
    out, said = run(["make", "-s", "-C", os.path.dirname(TOOLS), "try"], seconds=900)
    same(
        out,
        "cell,principal,action,resource,decision,statements,lacks\n"
        "0,arn:aws:iam::111122223333:user/ann,S3:getobject,arn:aws:s3:::b/k,allowed,identity/0/0,\n",
    )
    assert "nothing was proved" in said, said
