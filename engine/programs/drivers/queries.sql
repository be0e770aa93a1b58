create table t(a integer primary key, b text);
insert into t(b) values ('one'), ('two'), ('three');
select * from t order by b;

select max(a), count(*), group_concat(b, '+') from t where b like 't%';

with recursive n(i) as (select 1 union all select i + 1 from n where i < 20) select i, i * i, hex(i) from n where i % 7 = 0;

select nothing from nowhere;

select upper(b), length(b), substr(b, 2), coalesce(null, b) from t join (select 2 as two) on a >= two;

create unique index names on t(b);
explain query plan select a from t where b = 'two';
pragma integrity_check;
