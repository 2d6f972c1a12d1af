procedure main();
