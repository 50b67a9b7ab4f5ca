reset ;
