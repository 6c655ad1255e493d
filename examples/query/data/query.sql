-- who bought what
Select c.name, sum(o.total) As "the sum" from customers c Left  Join orders o
on o.customer = c.id /* all of them */ where o.paid Is not null AND c.name <> 'O''Hara'
or c.id in (:first, $2, ?) group by c.name having sum(o.total) >= 1.5e3 order by 2 desc;
