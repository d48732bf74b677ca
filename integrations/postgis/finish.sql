-- Commits what join.sql has made, and tells the counts.
commit;

select 'pairs in ' || :'into' || ': ' || :found;
\if :keeps_left
    select 'left rows without a partner: ' || :lonely;
\endif
\if :envelopes
    select 'pairs that rest on an envelope, where exact is false: ' || :inexact;
\endif
\if :lists
    select 'rows listed in ' || :'skipped' || ': ' || :listed;
\endif
