map zip.pk Zip zip.zip
