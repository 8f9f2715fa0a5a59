"""The command `zakdomp`: what stands around the proved finder for people, from a photograph or a folder of them to
corner files, an invoice and a picture. The finding is all done by the module `zakdomp`; here is nothing but files,
options and drawing. One module a subject."""
